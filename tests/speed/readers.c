#include "readers.h"

#include "burst.h"
#include "must.h"
#include "plain.h"
#include "subjects.h"

enum {
    CARD_ROUNDS = 4000, /* of five cards each */
    MOST_ADDED = 4      /* bytes after a card */
};

static long cards_by_answer[HIGHEST_REFUSAL + 1]; /* by the refusal's number; 0, accepted */

static void print_card(const uint8_t *card, size_t length)
{
    printf("a card of %zu bytes:", length);
    for (size_t b = 0; b < length; b++)
        printf(" %02x", card[b]);
    printf("\n");
}

/* An empty burst is answered with 0 or minus the card's refusal. Where in the card the refusal is, the library's calls
 * don't tell; the plain reader's places are set against the reference's. */
static void compare_readers(const uint8_t *card, size_t length)
{
    static struct plain_card plain;
    static struct fields fields;
    size_t offset;
    int refused = plain_read(card, length, &plain, &offset);
    int32_t answer = burst_receive(card, length, NULL, 0, NULL, 0);
    struct card_answer reference = reference_read_card(card, length, &fields);
    int same_place = reference.refusal == refused && (refused == 0 || reference.offset == offset);
    if (answer != -refused || !same_place)
        print_card(card, length);
    must(answer == -refused, "the library and the plain reader give the same number for a card");
    must(same_place, "the reference and the plain reader give the same number and offset for a card");
    cards_by_answer[refused]++;
}

/* Cuts a card short, adds bytes to it or changes one. Gives its length then. */
static size_t damage(struct random *r, uint8_t *card, size_t length)
{
    switch (below(r, 4)) {
    case 0:
        return (size_t)below(r, (int)length);
    case 1:
        for (int added = between(r, 1, MOST_ADDED); added > 0; added--)
            card[length++] = (uint8_t)below(r, 256);
        return length;
    case 2: /* near the front, where the sizes are */
        card[below(r, 5)] = (uint8_t)below(r, 12);
        return length;
    default:
        card[below(r, (int)length)] ^= (uint8_t)between(r, 1, 255);
        return length;
    }
}

/* The card as it is, or now and then with the defaults that it has stated; and damaged. */
static void compare_on_fields(struct random *r, const struct fields *fields)
{
    uint8_t card[MOST_CARD_BYTES + MOST_ADDED];
    int state = one_in(r, 8) ? between(r, 1, 3) : 0;
    size_t length = card_bytes(fields, state % 2, state / 2, card);
    compare_readers(card, length);
    length = damage(r, card, length);
    compare_readers(card, length);
}

/* A card that states a default or comes near to it: all refuse it, and where it must be. */
static void compare_on_stated(struct random *r, enum stated way)
{
    static struct fields fields;
    static struct stated_card stated;
    static struct plain_card plain;
    size_t offset;
    random_stated_card(r, way, &fields, &stated);
    compare_readers(stated.bytes, stated.length);
    int refused = plain_read(stated.bytes, stated.length, &plain, &offset);
    must(refused == stated.answer.refusal && offset == stated.answer.offset, "a stated default is refused where it stands");
}

static void compare_on_cuts(const struct subject *s)
{
    for (size_t length = 0; length <= s->card_length; length++)
        compare_readers(s->card, length);
}

static void print_agreement(void)
{
    long cards = 0;
    for (int number = 0; number <= HIGHEST_REFUSAL; number++)
        cards += cards_by_answer[number];
    printf("The readers agree on %ld cards: %ld accepted, and refused", cards, cards_by_answer[0]);
    for (int number = 1; number <= HIGHEST_REFUSAL; number++) {
        if (!refuses_cards(number))
            continue;
        must(cards_by_answer[number] > 0, "every refusal of a card is met");
        printf("%s %d: %ld", number == 1 ? "" : ",", number, cards_by_answer[number]);
    }
    printf("\n");
}

static void compare_on_random_cards(void)
{
    static struct fields fields;
    struct random r = {3};
    for (int round = 0; round < CARD_ROUNDS; round++) {
        random_card(&r, &fields);
        compare_on_fields(&r, &fields);
        spoil_card(&r, &fields);
        compare_on_fields(&r, &fields);
        compare_on_stated(&r, (enum stated)(round % WAYS_OF_STATING));
    }
}

void compare_card_readers(void)
{
    for (int s = 0; s < SUBJECTS; s++)
        compare_on_cuts(&subjects[s]);
    compare_on_random_cards();
    print_agreement();
}
