/* Measures how much stack a call of the library takes, and fails if it is not less than burst.h says. The figures that
 * burst.h has in a sentence are what was printed here; header.py, beside it, sets them against what is printed now.
 * (Built without sanitizers: they use the stack of whom they watch.) */
#define _GNU_SOURCE
#include "burst.h"

#include "inputs/cards.h"
#include "inputs/random.h"

#include <stdio.h>
#include <string.h>
#include <ucontext.h>

enum { STACK = 131072, PAINT = 0x5a, FRAMES = 64 };

static uint8_t card[MOST_CARD_BYTES];
static size_t card_length;
static uint8_t frames[FRAMES], output[FRAMES + MOST_MEMORY], written[MOST_CARD_BYTES];
static uint32_t checks;
static int32_t answer;

/* A call is made on a stack of its own, painted beforehand: what is no longer paint was used. */
static ucontext_t caller, callee;
static uint8_t painted[STACK];

static void call_nothing(void)
{
}

static void call_send(void)
{
    answer = burst_send(card, card_length, frames, FRAMES, output, sizeof output);
}

static void call_receive(void)
{
    answer = burst_receive(card, card_length, frames, FRAMES, output, sizeof output);
}

static void call_write(void)
{
    answer = card_write(card, card_length, written, sizeof written);
}

static void call_standard(void)
{
    answer = standard_card(checks, written, sizeof written);
}

static long painted_over_by(void (*function)(void))
{
    memset(painted, PAINT, sizeof painted);
    getcontext(&callee);
    callee.uc_stack.ss_sp = painted;
    callee.uc_stack.ss_size = sizeof painted;
    callee.uc_link = &caller;
    makecontext(&callee, function, 0);
    swapcontext(&caller, &callee);
    long unused = 0;
    while (unused < STACK && painted[unused] == PAINT)
        unused++;
    return STACK - unused;
}

static long stack_of(void (*function)(void))
{
    return painted_over_by(function) - painted_over_by(call_nothing);
}

/* Cards of every shape: accepted ones, and ones that are cut short. And a J of a standard card, or of none. */
static void random_arguments(struct random *r)
{
    struct fields fields;
    checks = (uint32_t)between(r, BURST_LEAST_STANDARD_CHECKS - 1, BURST_MOST_STANDARD_CHECKS + 1);
    random_card(r, &fields);
    card_length = card_bytes(&fields, 0, 0, card);
    if (one_in(r, 4))
        card_length = (size_t)below(r, (int)card_length);
    for (int u = 0; u < FRAMES; u++)
        frames[u] = (uint8_t)below(r, 1 << fields.k);
}

/* The larger of what was measured before and what the call takes now. */
static long most_of(long most, void (*function)(void))
{
    long now = stack_of(function);
    return now > most ? now : most;
}

int main(void)
{
    struct random r = {1};
    long send = 0, receive = 0, write = 0, standard = 0;
    for (int turn = 0; turn < 20; turn++) { /* the loader binds memcpy and memset at their first call, on our stack */
        random_arguments(&r);
        call_send();
        call_receive();
        call_write();
        call_standard();
    }
    for (int turn = 0; turn < 300; turn++) {
        random_arguments(&r);
        send = most_of(send, call_send);
        receive = most_of(receive, call_receive);
        write = most_of(write, call_write);
        standard = most_of(standard, call_standard);
    }
    printf("stack: burst_send %ld bytes, burst_receive %ld, card_write %ld, standard_card %ld, burst.h says %d\n", send,
           receive, write, standard, BURST_STACK_BYTES);
    if (send >= BURST_STACK_BYTES || receive >= BURST_STACK_BYTES || write >= BURST_STACK_BYTES ||
        standard >= BURST_STACK_BYTES) {
        printf("FAILED: not less stack than burst.h says\n");
        return 1;
    }
    return 0;
}
