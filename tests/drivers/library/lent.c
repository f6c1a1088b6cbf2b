#define _GNU_SOURCE
#include "lent.h"

#include <stdio.h>
#include <stdlib.h>
#include <string.h>
#include <sys/mman.h>
#include <unistd.h>

enum { GUARDS = 64, GUARD = 0xa5 };

static void stop_if(int failed, const char *what)
{
    if (failed) {
        perror(what);
        exit(2);
    }
}

/* A view of the file, between two pages that nobody may touch. */
static uint8_t *view(int file, size_t size, size_t page, int protection)
{
    uint8_t *around = mmap(NULL, size + 2 * page, PROT_NONE, MAP_PRIVATE | MAP_ANONYMOUS, -1, 0);
    stop_if(around == MAP_FAILED, "mmap");
    uint8_t *inside = mmap(around + page, size, protection, MAP_SHARED | MAP_FIXED, file, 0);
    stop_if(inside == MAP_FAILED, "mmap");
    return inside;
}

void make_arena(struct arena *arena, size_t most, enum access access)
{
    size_t page = (size_t)sysconf(_SC_PAGESIZE);
    arena->size = (most + 2 * GUARDS + page - 1) / page * page;
    int file = memfd_create("lent", 0);
    stop_if(file < 0, "memfd_create");
    stop_if(ftruncate(file, (off_t)arena->size) != 0, "ftruncate");
    arena->ours = view(file, arena->size, page, PROT_READ | PROT_WRITE);
    arena->lent = access == READ_ONLY ? view(file, arena->size, page, PROT_READ) : arena->ours;
    close(file);
}

static size_t guards_below(const struct arena *arena)
{
    return arena->offset < GUARDS ? arena->offset : GUARDS;
}

static size_t guards_above(const struct arena *arena)
{
    size_t above = arena->size - arena->offset - arena->length;
    return above < GUARDS ? above : GUARDS;
}

uint8_t *lend(struct arena *arena, const uint8_t *bytes, size_t length, enum placement placement)
{
    arena->length = length;
    arena->offset = placement == AT_START ? 0 : placement == AT_END ? arena->size - length : (arena->size - length) / 2;
    uint8_t *start = arena->ours + arena->offset;
    memset(start - guards_below(arena), GUARD, guards_below(arena));
    if (length > 0)
        memcpy(start, bytes, length);
    memset(start + length, GUARD, guards_above(arena));
    return arena->lent + arena->offset;
}

const uint8_t *lent_bytes(const struct arena *arena)
{
    return arena->ours + arena->offset;
}

static int all_guards(const uint8_t *bytes, size_t length)
{
    for (size_t b = 0; b < length; b++)
        if (bytes[b] != GUARD)
            return 0;
    return 1;
}

int holds(const struct arena *arena, const uint8_t *expected)
{
    const uint8_t *start = lent_bytes(arena);
    return all_guards(start - guards_below(arena), guards_below(arena)) &&
           (arena->length == 0 || memcmp(start, expected, arena->length) == 0) &&
           all_guards(start + arena->length, guards_above(arena));
}
