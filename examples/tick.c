/*
 * Flies a fleet file in place: ten ticks of half a second, by the near rule.
 *
 *     tick FILE
 *
 * The first tick that is refused ends the flight, with the line `refused N P`, its number and place, and exit status 1.
 * A refused tick leaves every byte as it was, so the file then has the fleet after the ticks before it: where the load is
 * refused, the very bytes that it had. examples/run builds it, and compares what it makes of some files with what the
 * program tenticks makes of them.
 */
#include <inttypes.h>
#include <stdio.h>
#include <stdlib.h>

#include "guineacrumb.h"

enum { TICKS = 10 };

static int stop(const char *name) {
    perror(name);
    return 2;
}

/* Whether all ticks were flown; says which was not. */
static int fly(uint8_t *file, size_t length) {
    for (int i = 0; i < TICKS; i++) {
        uint64_t place;
        uint32_t answer = guineacrumb_tick(file, length, 0.5f, GUINEACRUMB_RULE_NEAR, &place);
        if (answer != GUINEACRUMB_DONE) {
            printf("refused %" PRIu32 " %" PRIu64 "\n", answer, place);
            return 0;
        }
    }
    return 1;
}

int main(int count, char **words) {
    if (count != 2) {
        fputs("usage: tick FILE\n", stderr);
        return 2;
    }
    if (guineacrumb_version() != GUINEACRUMB_VERSION) {
        fputs("tick: the header is of another version than the library\n", stderr);
        return 2;
    }
    FILE *stored = fopen(words[1], "r+b");
    if (stored == NULL || fseek(stored, 0, SEEK_END) != 0)
        return stop(words[1]);
    long end = ftell(stored);
    if (end < 0)
        return stop(words[1]);
    size_t length = (size_t)end;
    rewind(stored);

    /* a byte more, since what is lent may not be null, and an empty file is a fleet too */
    uint8_t *file = malloc(length + 1);
    if (file == NULL || fread(file, 1, length, stored) != length)
        return stop(words[1]);
    int flown = fly(file, length);
    rewind(stored);
    if (fwrite(file, 1, length, stored) != length || fclose(stored) != 0)
        return stop(words[1]);
    free(file);
    return flown ? 0 : 1;
}
