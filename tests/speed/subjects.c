#include "subjects.h"

struct subject subjects[SUBJECTS] = {
    {.name = "P"}, {.name = "Q"}, {.name = "R"}, {.name = "std 7"}, {.name = "J8m21"},
    {.name = "T"}, {.name = "k3n6m12"}, {.name = "755 B"}};

static void open_subject(struct subject *s)
{
    struct random r = {1};
    if (s->name[1] == '\0')
        bench_card(s->name[0], &s->fields);
    else if (s->name[0] == 's')
        standard_fields(7, &s->fields);
    else if (s->name[0] == 'J')
        eight_checks_card(&s->fields);
    else if (s->name[0] == 'k')
        random_card_of_shape(&r, 3, 6, 12, MOST_CHECKS, 4, &s->fields);
    else
        longest_card(&s->fields);
    s->card_length = card_bytes(&s->fields, 0, 0, s->card);
}

void open_subjects(void)
{
    for (int s = 0; s < SUBJECTS; s++)
        open_subject(&subjects[s]);
}

int has_one_of_each(const struct subject *s)
{
    return s->fields.k == 1 && s->fields.n == 2;
}

int is_longest(const struct subject *s)
{
    return s->card_length == MOST_CARD_BYTES;
}

int is_main(const struct subject *s)
{
    return (has_one_of_each(s) && s->name[0] != 'Q' && s->name[0] != 's') || is_longest(s);
}
