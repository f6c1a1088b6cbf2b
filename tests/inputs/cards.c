#include "cards.h"

#include <string.h>

/* ---- Bytes ---- */

static uint8_t *write_mask(const int digits[MOST_MEMORY + 1], uint8_t *at)
{
    for (int b = 0; b < 4; b++) {
        int byte = 0, worth = 1;
        for (int a = 8 * b; a < 8 * b + 8; a++) {
            byte += worth * digits[a];
            worth *= 2;
        }
        *at++ = (uint8_t)byte;
    }
    return at;
}

static int stands(const int digits[MOST_MEMORY + 1])
{
    for (int a = 0; a <= MOST_MEMORY; a++)
        if (digits[a])
            return 1;
    return 0;
}

static uint8_t *write_check(const struct fields *card, int i, int q, uint8_t *at)
{
    uint8_t *map = at++;
    int worth = 1;
    *map = 0;
    for (int j = 1; j <= card->p; j++) {
        if (stands(card->check[i][q][j])) {
            *map = (uint8_t)(*map + worth);
            at = write_mask(card->check[i][q][j], at);
        }
        worth *= 2;
    }
    return at;
}

static uint8_t *write_generators(const struct fields *card, uint8_t *at)
{
    uint8_t *map = at;
    int place = 0;
    at += 2;
    map[0] = map[1] = 0;
    for (int i = 1; i <= card->k; i++)
        for (int j = 1; j <= card->p; j++) {
            if (stands(card->g[i][j])) {
                map[place / 8] = (uint8_t)(map[place / 8] + (1 << place % 8));
                at = write_mask(card->g[i][j], at);
            }
            place++;
        }
    return at;
}

size_t card_bytes(const struct fields *card, int state_k, int state_n, uint8_t *bytes)
{
    uint8_t *at = bytes;
    int k_stands = state_k || card->k != 1, n_stands = state_n || card->n != 2;
    *at++ = (uint8_t)(k_stands + 2 * n_stands);
    *at++ = (uint8_t)card->number;
    if (k_stands)
        *at++ = (uint8_t)card->k;
    if (n_stands)
        *at++ = (uint8_t)card->n;
    *at++ = (uint8_t)card->m;
    at = write_generators(card, at);
    for (int i = 1; i <= card->k; i++) {
        *at++ = (uint8_t)card->J[i];
        for (int q = 1; q <= card->J[i] && q <= MOST_CHECKS; q++)
            at = write_check(card, i, q, at);
    }
    return (size_t)(at - bytes);
}

/* ---- What is left out ---- */

static int has_zero_mask(const int masks[MOST_PARITY + 1][MOST_MEMORY + 1], int p)
{
    for (int j = 1; j <= p; j++)
        if (!stands(masks[j]))
            return 1;
    return 0;
}

int has_zero_generator(const struct fields *card)
{
    for (int i = 1; i <= card->k; i++)
        if (has_zero_mask(card->g[i], card->p))
            return 1;
    return 0;
}

int has_zero_check_mask(const struct fields *card)
{
    for (int i = 1; i <= card->k; i++)
        for (int q = 1; q <= card->J[i]; q++)
            if (has_zero_mask(card->check[i][q], card->p))
                return 1;
    return 0;
}

/* Where n is, if it stands: after k, if that stands. */
static size_t place_of_n(const uint8_t *card)
{
    return card[0] % 2 == 1 ? 3 : 2;
}

int states_default_k(const uint8_t *card)
{
    return card[0] % 2 == 1 && card[2] == 1;
}

int states_default_n(const uint8_t *card)
{
    return card[0] >= 2 && card[place_of_n(card)] == 2;
}

/* Takes a field out, and its bit out of byte 0. */
static size_t leave_out(uint8_t *card, size_t length, size_t at, int bit)
{
    memmove(card + at, card + at + 1, length - at - 1);
    card[0] = (uint8_t)(card[0] - bit);
    return length - 1;
}

size_t without_defaults(const uint8_t *card, size_t length, uint8_t *bytes)
{
    memcpy(bytes, card, length);
    if (states_default_n(card))
        length = leave_out(bytes, length, place_of_n(card), 2);
    if (states_default_k(card))
        length = leave_out(bytes, length, 2, 1);
    return length;
}

int refuses_cards(int number)
{
    return (number >= 1 && number <= 10) || number == 18;
}

/* ---- The bench ("Cards on the bench") ---- */

static void set_sizes(struct fields *card, int number, int k, int n, int m)
{
    memset(card, 0, sizeof *card);
    card->number = number;
    card->k = k;
    card->n = n;
    card->p = n - k;
    card->m = m;
}

/* Adds a check on one syndrome, s(a, 1), to stream i. */
static void add_single(struct fields *card, int i, int a)
{
    card->J[i]++;
    card->check[i][card->J[i]][1][a] = 1;
}

void bench_card(char name, struct fields *card)
{
    switch (name) {
    case 'P':
        set_sizes(card, 7, 1, 2, 1);
        card->g[1][1][0] = card->g[1][1][1] = 1;
        add_single(card, 1, 0);
        add_single(card, 1, 1);
        break;
    case 'Q':
        set_sizes(card, 8, 1, 2, 3);
        card->g[1][1][0] = card->g[1][1][1] = card->g[1][1][3] = 1;
        add_single(card, 1, 0);
        add_single(card, 1, 1);
        add_single(card, 1, 3);
        break;
    case 'R':
        set_sizes(card, 9, 1, 2, 5);
        card->g[1][1][0] = card->g[1][1][3] = card->g[1][1][4] = card->g[1][1][5] = 1;
        add_single(card, 1, 0);
        add_single(card, 1, 3);
        add_single(card, 1, 4);
        add_single(card, 1, 5);
        card->check[1][4][1][1] = 1;
        break;
    default: /* T */
        set_sizes(card, 10, 2, 3, 2);
        card->g[1][1][0] = card->g[1][1][1] = 1;
        card->g[2][1][0] = card->g[2][1][2] = 1;
        add_single(card, 1, 0);
        add_single(card, 1, 1);
        add_single(card, 2, 0);
        add_single(card, 2, 2);
        break;
    }
}

/* ---- Standard cards (document 02, R-5) ---- */

void standard_fields(int J, struct fields *card)
{
    static const int terms[] = {0, 1, 3, 7, 12, 20, 30};
    set_sizes(card, J, 1, 2, terms[J - 1]);
    for (int q = 0; q < J; q++) {
        card->g[1][1][terms[q]] = 1;
        add_single(card, 1, terms[q]);
    }
}

/* ---- A card of the report ---- */

void eight_checks_card(struct fields *card)
{
    static const int terms[] = {0, 11, 13, 16, 17, 19, 20, 21};
    static const int check_of[] = {1, 8, 6, 6, 7, 8, 6, 0, 8, 0, 0, 2, 0, 3, 7, 8, 4, 5, 0, 6, 7, 8};
    set_sizes(card, 12, 1, 2, 21);
    card->J[1] = 8;
    for (size_t t = 0; t < sizeof terms / sizeof *terms; t++)
        card->g[1][1][terms[t]] = 1;
    for (int a = 0; a <= card->m; a++)
        if (check_of[a])
            card->check[1][check_of[a]][1][a] = 1;
}

/* ---- The longest card ---- */

/* The digit that lies r frames after information stream i, both counted from 0, where four frames of a code with one
 * information and one parity stream are taken as one. */
static void set_after(int masks[MOST_PARITY + 1][MOST_MEMORY + 1], int i, int r)
{
    masks[(i + r) % 4 + 1][(i + r) / 4] = 1;
}

/* The terms of the one generator, and the check that each syndrome goes to, 0 for none: those of the program `bench`,
 * where they came from a search that found sixteen checks; ten of them are taken. The same sums of syndromes are the
 * checks of all four streams. */
void longest_card(struct fields *card)
{
    static const uint8_t terms[] = {0, 58, 70, 87, 91, 95, 99, 101, 104, 108, 109, 113, 119, 121, 122, 123};
    static const uint8_t check_of[] = {
        1, 3, 8, 0, 6, 0, 0, 10, 0, 0, 0, 10, 3, 9, 0, 2, 5, 4, 0, 8, 7, 5, 0, 1, 0, 6, 0, 8, 0, 7, 0, 0, 4, 0, 9,
        0, 0, 0, 10, 0, 2, 7, 4, 0, 0, 8, 0, 0, 0, 0, 10, 0, 0, 2, 1, 0, 0, 0, 2, 3, 0, 0, 7, 0, 0, 0, 6, 0, 0, 10,
        3, 0, 0, 0, 5, 9, 0, 0, 7, 10, 0, 1, 7, 10, 8, 0, 0, 4, 0, 8, 0, 5, 0, 0, 0, 6, 0, 8, 0, 7, 0, 8, 0, 0, 9,
        0, 0, 0, 10};
    set_sizes(card, 11, 4, 8, MOST_MEMORY);
    for (int i = 0; i < 4; i++) {
        card->J[i + 1] = MOST_CHECKS;
        for (size_t t = 0; t < sizeof terms; t++)
            set_after(card->g[i + 1], i, terms[t]);
        for (int r = 0; r < (int)sizeof check_of; r++)
            if (check_of[r])
                set_after(card->check[i + 1][check_of[r]], i, r);
    }
}

/* ---- Random cards ---- */

static void random_generators(struct random *r, struct fields *card, int terms)
{
    for (int i = 1; i <= card->k; i++) {
        int needed = between(r, 1, card->p); /* a stream in no parity stream at all can have no check */
        for (int j = 1; j <= card->p; j++) {
            if (j != needed && one_in(r, 4))
                continue;
            for (int t = between(r, 1, terms); t > 0; t--)
                card->g[i][j][between(r, 0, card->m)] = 1;
        }
    }
}

/* Replaces check q of stream i: a syndrome in which digit (0, i) is, and fewer than `more` others. */
static void random_check(struct random *r, struct fields *card, int i, int q, int more)
{
    memset(card->check[i][q], 0, sizeof card->check[i][q]);
    int a, j;
    do {
        a = between(r, 0, card->m);
        j = between(r, 1, card->p);
    } while (!card->g[i][j][a]);
    card->check[i][q][j][a] = 1;
    for (int others = below(r, more); others > 0; others--)
        card->check[i][q][between(r, 1, card->p)][between(r, 0, card->m)] = 1;
}

static int fits(const struct fields *card, int i, const struct touched *own, const struct touched *taken)
{
    if (!own->error[0][i])
        return 0;
    for (int b = 0; b <= card->m; b++)
        for (int s = 1; s <= card->n; s++)
            if (own->error[b][s] && taken->error[b][s] && !(b == 0 && s == i))
                return 0;
    return 1;
}

static void add_errors(const struct fields *card, const struct touched *own, struct touched *taken)
{
    for (int b = 0; b <= card->m; b++)
        for (int s = 1; s <= card->n; s++)
            taken->error[b][s] |= own->error[b][s];
}

/* Replaces check q of stream i by a random one. Gives whether it fits, and adds its errors then. */
static int random_check_fits(struct random *r, struct fields *card, int i, int q, int more, struct touched *taken)
{
    random_check(r, card, i, q, more);
    struct touched own = reference_touched(card, i, q);
    if (!fits(card, i, &own, taken))
        return 0;
    add_errors(card, &own, taken);
    return 1;
}

/* Takes random checks for stream i as long as they fit, up to `most`. Single syndromes touch the fewest errors, so
 * most checks are found where they are tried first. */
static void random_checks(struct random *r, struct fields *card, int i, int most)
{
    struct touched taken;
    int singles = one_in(r, 2) ? 16 * most : 0;
    memset(&taken, 0, sizeof taken);
    card->J[i] = 0;
    for (int tries = 0; card->J[i] < most && (card->J[i] == 0 || tries < 24 * most); tries++) {
        int q = card->J[i] + 1;
        if (random_check_fits(r, card, i, q, tries < singles ? 1 : 4, &taken))
            card->J[i] = q;
        else
            memset(card->check[i][q], 0, sizeof card->check[i][q]);
    }
}

void random_card_of_shape(struct random *r, int k, int n, int m, int most, int terms, struct fields *card)
{
    set_sizes(card, below(r, 256), k, n, m);
    random_generators(r, card, terms);
    for (int i = 1; i <= k; i++)
        random_checks(r, card, i, most);
}

void random_card(struct random *r, struct fields *card)
{
    if (one_in(r, 20)) { /* many checks: few information streams, many sparse generators */
        int k = between(r, 1, 2), n = between(r, 7, MOST_STREAMS);
        random_card_of_shape(r, k, n, between(r, 28, MOST_MEMORY), MOST_CHECKS, 5, card);
        return;
    }
    int k = one_in(r, 3) ? 1 : between(r, 1, MOST_INFORMATION);
    int n = between(r, k + 1, MOST_STREAMS);
    int m = one_in(r, 4) ? below(r, 4) : one_in(r, 8) ? MOST_MEMORY : between(r, 0, MOST_MEMORY);
    int most = one_in(r, 3) ? MOST_CHECKS : between(r, 1, MOST_CHECKS);
    int terms = one_in(r, 5) ? 12 : between(r, 1, 4);
    random_card_of_shape(r, k, n, m, most, terms, card);
}

/* Two checks of a stream in each other's place. */
static void swap_checks(struct fields *card, int i, int one, int other)
{
    int kept[MOST_PARITY + 1][MOST_MEMORY + 1];
    memcpy(kept, card->check[i][one], sizeof kept);
    memcpy(card->check[i][one], card->check[i][other], sizeof kept);
    memcpy(card->check[i][other], kept, sizeof kept);
}

int vary_card(struct random *r, struct fields *card)
{
    int i = between(r, 1, card->k), last = card->J[i];
    int kind = below(r, last == 1 ? 2 : 5);
    if (kind == 0 && card->m < MOST_MEMORY) {
        card->m++; /* no mask has a term there, so nothing else comes of it */
    } else if (kind <= 1) {
        card->number = (card->number + between(r, 1, 255)) % 256;
    } else if (kind == 2) {
        memset(card->check[i][last], 0, sizeof card->check[i][last]);
        card->J[i]--;
    } else {
        swap_checks(card, i, between(r, 1, last - 1), last);
    }
    return kind > 2;
}

/* ---- Many checks ---- */

int has_most_checks(const struct fields *card)
{
    for (int i = 1; i <= card->k; i++)
        if (card->J[i] == MOST_CHECKS)
            return 1;
    return 0;
}

/* The card's bytes, but without a check of its last stream. */
static void begin_checks(struct many_checks_card *many, struct fields *card, int state_k)
{
    card->J[card->k] = 0;
    many->length = card_bytes(card, state_k, 0, many->bytes);
    many->place = many->length - 1;
}

/* Adds check 1 of the card's last stream to the bytes, where there is room for more checks than in the fields. */
static void add_check(struct many_checks_card *many, const struct fields *card)
{
    many->length = (size_t)(write_check(card, card->k, 1, many->bytes + many->length) - many->bytes);
    many->bytes[many->place]++;
    if (many->bytes[many->place] == MOST_CHECKS)
        many->up_to_most = many->length;
}

/* Four generators with two terms and three with one. The syndrome of each term is a check: no two of them have another
 * error in common. */
void eleven_checks_card(int state_k, struct many_checks_card *many)
{
    static const int last_term[] = {1, 2, 3, 4, 0, 0, 0};
    struct fields card;
    set_sizes(&card, 13, 1, MOST_STREAMS, 4);
    for (int j = 1; j <= card.p; j++)
        card.g[1][j][0] = card.g[1][j][last_term[j - 1]] = 1;
    begin_checks(many, &card, state_k);
    for (int j = 1; j <= card.p; j++)
        for (int a = 0; a <= card.m; a++)
            if (card.g[1][j][a]) {
                card.check[1][1][j][a] = 1;
                add_check(many, &card);
                card.check[1][1][j][a] = 0;
            }
}

void random_many_checks_card(struct random *r, struct many_checks_card *many)
{
    struct fields card;
    do {
        struct touched taken;
        int k = one_in(r, 3) ? 2 : 1;
        random_card_of_shape(r, k, MOST_STREAMS, between(r, 28, MOST_MEMORY), MOST_CHECKS, 5, &card);
        begin_checks(many, &card, one_in(r, 2));
        memset(&taken, 0, sizeof taken);
        for (int tries = 0; tries < 400 && many->bytes[many->place] < MOST_FORMER_CHECKS; tries++)
            if (random_check_fits(r, &card, k, 1, tries < 300 ? 1 : 4, &taken))
                add_check(many, &card);
    } while (many->bytes[many->place] <= MOST_CHECKS);
}

void leave_most_checks(struct many_checks_card *many)
{
    many->bytes[many->place] = MOST_CHECKS;
    many->length = many->up_to_most;
}

/* ---- Cards that state a default ---- */

static void state_as(struct stated_card *stated, const struct fields *card, int state_k, int state_n, int refusal,
                     size_t offset)
{
    stated->length = card_bytes(card, state_k, state_n, stated->bytes);
    stated->answer.refusal = refusal;
    stated->answer.offset = offset;
}

void random_stated_card(struct random *r, enum stated way, struct fields *card, struct stated_card *stated)
{
    static const uint8_t beyond[] = {0, 1, 9, 10, 128, 255};
    int k = way == N_STATED_UNDER_K ? between(r, 2, MOST_INFORMATION) : 1;
    int n = way == N_STATED || way == BOTH_STATED ? 2 : between(r, k + 1, MOST_STREAMS);
    random_card_of_shape(r, k, n, between(r, 0, MOST_MEMORY), between(r, 1, 6), 3, card);
    switch (way) {
    case K_STATED:
        state_as(stated, card, 1, 0, 18, 2);
        break;
    case N_STATED:
        state_as(stated, card, 0, 1, 18, 2);
        break;
    case BOTH_STATED:
        state_as(stated, card, 1, 1, 18, 2);
        break;
    case K_STATED_N_CUT:
        state_as(stated, card, 1, 1, 18, 2);
        stated->length = 3;
        break;
    case K_STATED_N_BEYOND:
        state_as(stated, card, 1, 1, 18, 2);
        stated->bytes[3] = beyond[below(r, sizeof beyond)];
        break;
    case FIELD_CUT:
        state_as(stated, card, one_in(r, 2), 1, 1, 2);
        stated->length = 2;
        break;
    default: /* N_STATED_UNDER_K */
        state_as(stated, card, 1, 1, 3, 3);
        stated->bytes[3] = 2;
        break;
    }
}

void spoil_card(struct random *r, struct fields *card)
{
    int i = between(r, 1, card->k), q = between(r, 1, card->J[i]);
    switch (below(r, 8)) {
    case 0: /* a check twice */
        memcpy(card->check[i][q], card->check[i][between(r, 1, card->J[i])], sizeof card->check[i][q]);
        break;
    case 1: /* another check that is on the digit, orthogonal or not */
        random_check(r, card, i, q, 4);
        break;
    case 2: /* a check on anything */
        memset(card->check[i][q], 0, sizeof card->check[i][q]);
        for (int pairs = below(r, 4); pairs > 0; pairs--)
            card->check[i][q][between(r, 1, card->p)][between(r, 0, card->m)] = 1;
        break;
    case 3: /* one pair more, or one less */
        card->check[i][q][between(r, 1, card->p)][between(r, 0, card->m)] ^= 1;
        break;
    case 4: /* another generator under the same checks */
        card->g[i][between(r, 1, card->p)][between(r, 0, card->m)] ^= 1;
        break;
    case 5: /* no such J */
        card->J[i] = one_in(r, 3) ? 0 : between(r, MOST_CHECKS + 1, one_in(r, 2) ? MOST_FORMER_CHECKS : 255);
        break;
    case 6: /* a mask with a bit above m, if there is room above */
        if (card->m < MOST_MEMORY)
            card->check[i][q][between(r, 1, card->p)][between(r, card->m + 1, MOST_MEMORY)] = 1;
        break;
    default: /* no such m */
        card->m = between(r, MOST_MEMORY + 1, 255);
        break;
    }
}
