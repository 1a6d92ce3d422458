/*
 * Ten calls of guineacrumb_tick, as the program tenticks flies: it reads a fleet file from standard input and writes the
 * one after ten ticks of 0.5 by the near rule, or the line `refused N P` of the first call that is refused.
 *
 * What no call may touch is looked at too: the bytes on either side of the file, all of it where the call is refused, and
 * file and place where there is no such rule. Where one of them is not as it was, the exit status is 1.
 */
#include <inttypes.h>
#include <stdio.h>
#include <stdlib.h>
#include <string.h>

#include "guineacrumb.h"

/* Bytes on either side of the file, an odd number so that its words stand at odd addresses. */
#define GUARDS 77
#define GUARD 0x5A

/* A file that is longer than 64 records is refused, but all of it has to be there for the place. */
#define ROOM ((size_t)1 << 20)

#define UNWRITTEN 0xA5A5A5A5A5A5A5A5u

static uint8_t memory[GUARDS + ROOM + GUARDS], before[sizeof memory];

static void stop(const char *why) {
    fprintf(stderr, "ten_calls: %s\n", why);
    exit(1);
}

/* Makes the call, and stops where it touched what it may not. */
static uint32_t tick(size_t length, uint32_t rule, uint64_t *place) {
    memcpy(before, memory, sizeof memory);
    uint32_t answer = guineacrumb_tick(memory + GUARDS, length, 0.5f, rule, place);
    size_t touched = answer == GUINEACRUMB_DONE ? length : 0, after = GUARDS + touched;
    if (memcmp(memory, before, GUARDS) != 0 || memcmp(memory + after, before + after, sizeof memory - after) != 0)
        stop("a call left bytes changed that it may not touch");
    return answer;
}

int main(void) {
    memset(memory, GUARD, sizeof memory);
    uint8_t *file = memory + GUARDS;
    size_t length = fread(file, 1, ROOM, stdin);
    if (!feof(stdin) || ferror(stdin))
        stop("the input can't be read, or is over a megabyte");

    uint64_t place = UNWRITTEN;
    if (tick(length, GUINEACRUMB_RULE_NEAR + 1, &place) != GUINEACRUMB_UNFIT || place != UNWRITTEN)
        stop("a rule that there is not was taken");

    for (int i = 0; i < 10; i++) {
        uint32_t answer = tick(length, GUINEACRUMB_RULE_NEAR, &place);
        if (answer != GUINEACRUMB_DONE) {
            printf("refused %" PRIu32 " %" PRIu64 "\n", answer, place);
            return 0;
        }
        if (place != 0)
            stop("a tick that is flown has a place");
    }
    if (fwrite(file, 1, length, stdout) != length || fflush(stdout) != 0)
        stop("the output can't be written");
    return 0;
}
