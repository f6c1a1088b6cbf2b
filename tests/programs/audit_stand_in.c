/* Stands in for the program `audit` when tests/programs/auditing itself is tried: it tells the reference's own answers.
 * MISTAKE, in the environment, is not set, or one of these:
 *
 *     sixteen      as many as 16 checks are good
 *     former       cards are read by the former rule
 *     short        2,048 bytes are too long
 *     cut          of 2,049 bytes the first 2,048 are read as a card
 *     folder       what can't be read from its start on, as a folder, is an empty card
 *     read_error   a read that fails later on is taken for the end
 *     one_read     what the first read gives is the file
 *     half         of a file that grows what was there at first is read
 *     whole        what is read of a file that grows or shrinks counts
 *     before       so it does if it changes before the first read
 *     after        so it does if it changes after the last read
 *     beyond       a file that grows beyond what is read is too long
 *     pipe         what has no size, as a pipe, is not read
 *     link         links are not followed
 *     left_open    files stay open
 *     counted      refused cards are counted
 *     names        the names are counted
 *     sixteen_bits the count has sixteen bits
 *     line         a name is written up to its first line feed
 *     name_255     a name is written up to 255 bytes
 *     name_4095    a name is written up to 4,095 bytes
 *     no_name      the empty name is passed over
 *     dash         - is standard input
 *     option       --help is an option
 *     once         a file that is named again is passed over
 *     sorted       the names come in order
 *     no_end       there is no last line
 *     silent       it doesn't say that a write failed */
#define _GNU_SOURCE
#include "reference/reference.h"

#include <fcntl.h>
#include <stdio.h>
#include <stdlib.h>
#include <string.h>
#include <unistd.h>

static uint8_t card[MOST_STORED_BYTES + 1];

static int errs(const char *name)
{
    const char *mistake = getenv("MISTAKE");
    return mistake && strcmp(mistake, name) == 0;
}

/* The place of the end, -1 if there is none; the next read is at the start. */
static off_t size_of(int file)
{
    off_t size = lseek(file, 0, SEEK_END);
    lseek(file, 0, SEEK_SET);
    return size;
}

/* Reads until the card is full or the file ends. The count of bytes; -1 if a read fails. */
static long read_bytes(int file, size_t most)
{
    size_t count = 0;
    while (count < most) {
        ssize_t got = read(file, card + count, most - count);
        if (got < 0 && !errs(count == 0 ? "folder" : "read_error"))
            return -1;
        if (got <= 0)
            break;
        count += (size_t)got;
        if (errs("one_read"))
            break;
    }
    return (long)count;
}

/* The count of the file's bytes, all that are more than a card may have taken as one; -1 if it is not read. */
static long read_file(const char *name)
{
    int file = errs("dash") && strcmp(name, "-") == 0 ? 0 : open(name, O_RDONLY | (errs("link") ? O_NOFOLLOW : 0));
    if (file < 0)
        return -1;
    off_t before = size_of(file);
    int half = errs("half") && before > 0 && before < MOST_STORED_BYTES;
    long count = read_bytes(file, half ? (size_t)before : sizeof card);
    off_t after = size_of(file);
    if (!errs("left_open"))
        close(file);
    if (half || errs("whole"))
        return count;
    if (before < 0)
        return errs("pipe") ? -1 : count;
    if (errs("folder") && count == 0)
        return 0;
    if (count > MOST_STORED_BYTES)
        return before == after || errs("beyond") ? count : -1;
    return (before == count || errs("before")) && (after == count || errs("after")) ? count : -1;
}

/* Tells why a file does not pass; 1 if it does. */
static int passes(const char *name)
{
    struct fields fields;
    long length = read_file(name);
    size_t shown = strlen(name);
    if (errs("line"))
        shown = strcspn(name, "\n");
    if (errs("name_255") && shown > 255)
        shown = 255;
    if (errs("name_4095") && shown > 4095)
        shown = 4095;
    if (length > MOST_STORED_BYTES && errs("cut"))
        length = MOST_STORED_BYTES;
    if (length < 0) {
        printf("%.*s not read\n", (int)shown, name);
        return 0;
    }
    if (length > MOST_STORED_BYTES - errs("short")) {
        printf("%.*s input too long\n", (int)shown, name);
        return 0;
    }
    enum rule rule = errs("former") ? FORMER : PRESENT;
    struct card_answer answer = reference_read_card_under(rule, card, (size_t)length, &fields);
    if (answer.refusal == 0 || (errs("sixteen") && answer.refusal == J_OUTSIDE_RANGE && card[answer.offset] <= 16))
        return 1;
    printf("%.*s refused %d at %zu\n", (int)shown, name, answer.refusal, answer.offset);
    return errs("counted");
}

static int is_passed_over(char **names, int at)
{
    for (int before = 0; errs("once") && before < at; before++)
        if (strcmp(names[before], names[at]) == 0)
            return 1;
    return (errs("no_name") && names[at][0] == '\0') || (errs("option") && strcmp(names[at], "--help") == 0);
}

static int by_bytes(const void *left, const void *right)
{
    return strcmp(*(char *const *)left, *(char *const *)right);
}

int main(int argc, char **argv)
{
    char **names = argv + 1;
    int count = argc - 1, passed = 0;
    if (errs("sorted"))
        qsort(names, (size_t)count, sizeof *names, by_bytes);
    for (int at = 0; at < count; at++)
        passed += !is_passed_over(names, at) && passes(names[at]);
    if (errs("names"))
        passed = count;
    if (errs("sixteen_bits"))
        passed &= 0xffff;
    if (!errs("no_end"))
        printf("end %d\n", passed);
    if ((fflush(stdout) != 0 || ferror(stdout)) && !errs("silent"))
        fprintf(stderr, "audit: the lines could not be written\n");
    return 0;
}
