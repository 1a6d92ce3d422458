/*
 * Compares guineacrumb_root and guineacrumb_roots with the processor's square root instruction, and times the three.
 *
 *     root_all PROCESSES STEP
 *
 * The comparison runs over the bit patterns 0, STEP, 2 * STEP .. below 2^32, so over all of them for
 * a STEP of 1, shared out to PROCESSES processes. A NaN agrees with a NaN; all else agrees by its bits.
 * The exit status is 0 only where all agree.
 *
 * Every pattern goes through every lane of guineacrumb_roots: eight of them, of all sizes, are given to eight calls,
 * each time one lane further on. So each is compared in eight lanes, with seven others beside it.
 *
 * The times are over positive normal numbers in random order: of calls that don't wait for each other, and of a
 * chain of calls, each of which waits for the one before; of guineacrumb_roots, of eight chains side by side.
 */
#define _DEFAULT_SOURCE
#include <inttypes.h>
#include <stdint.h>
#include <stdio.h>
#include <stdlib.h>
#include <string.h>
#include <sys/mman.h>
#include <sys/wait.h>
#include <time.h>
#include <unistd.h>

#include "guineacrumb.h"

float machine_root(float x);

#define PATTERNS ((uint64_t)1 << 32)
#define LANES GUINEACRUMB_ROOTS_LENGTH
#define MOST_PROCESSES 1024
#define SHOWN 4

#define NUMBERS 65536
#define PASSES 20
#define REPETITIONS 9

/* Arguments at which the two differ: those of a call, and the lane in which they do. */
struct difference {
    float given[LANES];
    int lane;
};

/* What one process found; the first differences are kept. */
struct found {
    uint64_t compared;
    uint64_t different;
    struct difference kept[SHOWN];
};

/* One of the two comparisons. */
struct comparison {
    /* Over the patterns, or groups of patterns, `from` up to `to`; there are `total` patterns, STEP apart. */
    struct found (*compare)(uint64_t from, uint64_t to, uint64_t total, uint64_t step);
    void (*show)(const struct difference *difference);
    /* The patterns of a group, and how often each is compared. */
    uint64_t group, times;
    /* What the line that counts says behind the number of patterns. */
    const char *how;
};

static float of_word(uint32_t word) {
    float x;
    memcpy(&x, &word, sizeof x);
    return x;
}

static uint32_t to_word(float x) {
    uint32_t word;
    memcpy(&word, &x, sizeof word);
    return word;
}

static int agree(float got, float wanted) {
    return (to_word(got) == to_word(wanted)) | ((got != got) & (wanted != wanted));
}

static void differs(struct found *found, const float *given, int count, int lane) {
    if (found->different < SHOWN) {
        struct difference *difference = &found->kept[found->different];
        memcpy(difference->given, given, (size_t)count * sizeof *given);
        difference->lane = lane;
    }
    found->different++;
}

static struct found compare_one(uint64_t from, uint64_t to, uint64_t total, uint64_t step) {
    struct found found = {0};
    (void)total;
    for (uint64_t i = from; i < to; i++) {
        float x = of_word((uint32_t)(i * step));
        if (!agree(guineacrumb_root(x), machine_root(x)))
            differs(&found, &x, 1, 0);
        found.compared++;
    }
    return found;
}

static void show_one(const struct difference *difference) {
    float x = difference->given[0];
    printf("%08" PRIx32 ": guineacrumb_root gives %08" PRIx32 ", the instruction %08" PRIx32 "\n", to_word(x),
           to_word(guineacrumb_root(x)), to_word(machine_root(x)));
}

/* A number near the golden section of `total` that has no divisor in common with it. */
static uint64_t stride_of(uint64_t total) {
    uint64_t stride = (uint64_t)((double)total * 0.6180339887498949) | 1;
    for (;; stride += 2) {
        uint64_t a = total, b = stride;
        while (b != 0) {
            uint64_t rest = a % b;
            a = b;
            b = rest;
        }
        if (a == 1)
            return stride;
    }
}

/*
 * Number i of the patterns in the order of their groups is pattern i * stride, modulo their number: each comes once, and
 * those of a group lie far apart. The last group takes first ones again to be full, and does not count them.
 */
static struct found compare_eight(uint64_t from, uint64_t to, uint64_t total, uint64_t step) {
    struct found found = {0};
    uint64_t stride = stride_of(total) % total, at = from * LANES * stride % total;
    for (uint64_t group = from; group < to; group++) {
        /* Twice over, so that what a call is given, one lane further on each time, stands in one piece. */
        float given[2 * LANES], wanted[2 * LANES];
        for (int i = 0; i < LANES; i++) {
            given[i] = given[LANES + i] = of_word((uint32_t)(at * step));
            wanted[i] = wanted[LANES + i] = machine_root(given[i]);
            at += stride;
            if (at >= total)
                at -= total;
        }
        for (int turn = 0; turn < LANES; turn++) {
            float numbers[LANES];
            memcpy(numbers, given + turn, sizeof numbers);
            guineacrumb_roots(numbers);
            int same = 1;
            for (int lane = 0; lane < LANES; lane++)
                same &= agree(numbers[lane], wanted[turn + lane]);
            for (int lane = 0; lane < LANES && !same; lane++)
                if (!agree(numbers[lane], wanted[turn + lane]))
                    differs(&found, given + turn, LANES, lane);
        }
        uint64_t left = total - group * LANES;
        found.compared += (left < LANES ? left : LANES) * LANES;
    }
    return found;
}

static void show_eight(const struct difference *difference) {
    float numbers[LANES], x = difference->given[difference->lane];
    memcpy(numbers, difference->given, sizeof numbers);
    guineacrumb_roots(numbers);
    printf("%08" PRIx32 " in lane %d: guineacrumb_roots gives %08" PRIx32 ", the instruction %08" PRIx32 "; given",
           to_word(x), difference->lane, to_word(numbers[difference->lane]), to_word(machine_root(x)));
    for (int lane = 0; lane < LANES; lane++)
        printf(" %08" PRIx32, to_word(difference->given[lane]));
    printf("\n");
}

static const struct comparison comparisons[] = {
    {compare_one, show_one, 1, 1, "compared"},
    {compare_eight, show_eight, LANES, LANES, "compared in each of the 8 lanes of guineacrumb_roots"},
};

/* Returns whether every pattern was compared and none differed, and prints what was found. */
static int compare_all(const struct comparison *comparison, uint64_t processes, uint64_t step) {
    uint64_t total = (PATTERNS + step - 1) / step;
    uint64_t groups = (total + comparison->group - 1) / comparison->group;
    size_t size = processes * sizeof(struct found);
    struct found *found = mmap(NULL, size, PROT_READ | PROT_WRITE, MAP_SHARED | MAP_ANONYMOUS, -1, 0);
    if (found == MAP_FAILED) {
        perror("mmap");
        return 0;
    }
    fflush(stdout);
    for (uint64_t k = 0; k < processes; k++) {
        pid_t child = fork();
        if (child < 0) {
            perror("fork");
            break;
        }
        if (child == 0) {
            found[k] = comparison->compare(groups * k / processes, groups * (k + 1) / processes, total, step);
            _exit(0);
        }
    }
    while (wait(NULL) > 0)
        ;
    uint64_t compared = 0, different = 0, shown = 0;
    for (uint64_t k = 0; k < processes; k++) {
        for (uint64_t j = 0; j < found[k].different && j < SHOWN && shown < SHOWN; j++, shown++)
            comparison->show(&found[k].kept[j]);
        compared += found[k].compared;
        different += found[k].different;
    }
    munmap(found, size);
    printf("%" PRIu64 " patterns %s, %" PRIu64 " different\n", compared / comparison->times, comparison->how, different);
    /* A process that did not start, or was ended early, has compared nothing. */
    uint64_t missing = total * comparison->times - compared;
    if (missing != 0)
        printf("%" PRIu64 " patterns were not compared\n", missing / comparison->times);
    return missing == 0 && different == 0;
}

static uint32_t random_word(void) {
    static uint32_t state = 0x9E3779B9;
    state ^= state << 13;
    state ^= state >> 17;
    state ^= state << 5;
    return state;
}

static double now(void) {
    struct timespec t;
    clock_gettime(CLOCK_MONOTONIC, &t);
    return (double)t.tv_sec * 1e9 + (double)t.tv_nsec;
}

/* What the timed calls gave: a store that the compiler may not leave out. */
static volatile uint32_t sink;

/* Nanoseconds for a call. */
static double time_apart(float (*function)(float), const float *numbers) {
    uint32_t mixed = 0;
    double start = now();
    for (int pass = 0; pass < PASSES; pass++)
        for (int i = 0; i < NUMBERS; i++)
            mixed ^= to_word(function(numbers[i]));
    double end = now();
    sink = mixed;
    return (end - start) / ((double)PASSES * NUMBERS);
}

/* A number that waits for what the call before gave: the last digit of that changes its own, and it stays a positive
 * normal number. The few instructions that this takes are timed with the call. */
static float after(float x, float before) {
    return of_word(to_word(x) ^ (to_word(before) & 1));
}

/* Nanoseconds for a call where each waits for the one before. */
static double time_chained(float (*function)(float), const float *numbers) {
    float last = 0;
    double start = now();
    for (int pass = 0; pass < PASSES; pass++)
        for (int i = 0; i < NUMBERS; i++)
            last = function(after(numbers[i], last));
    double end = now();
    sink = to_word(last);
    return (end - start) / ((double)PASSES * NUMBERS);
}

/* The same of guineacrumb_roots, with a chain in each lane: nanoseconds for a call, so for eight roots. */
static double time_eight_chained(const float *numbers) {
    float last[LANES] = {0};
    double start = now();
    for (int pass = 0; pass < PASSES; pass++)
        for (int i = 0; i < NUMBERS; i += LANES) {
            for (int lane = 0; lane < LANES; lane++)
                last[lane] = after(numbers[i + lane], last[lane]);
            guineacrumb_roots(last);
        }
    double end = now();
    for (int lane = 0; lane < LANES; lane++)
        sink = to_word(last[lane]);
    return (end - start) / ((double)PASSES * NUMBERS / LANES);
}

static int by_size(const void *a, const void *b) {
    double x = *(const double *)a, y = *(const double *)b;
    return (x > y) - (x < y);
}

static double median(double *times) {
    qsort(times, REPETITIONS, sizeof *times, by_size);
    return times[REPETITIONS / 2];
}

static void time_all(void) {
    static float numbers[NUMBERS];
    const uint32_t least = 0x00800000, infinity = 0x7F800000;
    for (int i = 0; i < NUMBERS; i++)
        numbers[i] = of_word(least + random_word() % (infinity - least));
    enum { APART, CHAINED, WAYS };
    static const struct {
        const char *name;
        double (*time)(float (*function)(float), const float *numbers);
    } ways[WAYS] = {
        [APART] = {"calls that don't wait for each other", time_apart},
        [CHAINED] = {"a chain of calls, each waiting for the one before", time_chained},
    };
    double ours[WAYS][REPETITIONS], machine[WAYS][REPETITIONS], ratio[WAYS][REPETITIONS];
    double eight[REPETITIONS], gain[REPETITIONS];
    for (int i = 0; i < REPETITIONS; i++) {
        for (int way = 0; way < WAYS; way++) {
            ours[way][i] = ways[way].time(guineacrumb_root, numbers);
            machine[way][i] = ways[way].time(machine_root, numbers);
            ratio[way][i] = ours[way][i] / machine[way][i];
        }
        eight[i] = time_eight_chained(numbers);
        gain[i] = ours[CHAINED][i] * LANES / eight[i];
    }
    for (int way = 0; way < WAYS; way++)
        printf("%s:\n    guineacrumb_root %.2f ns a call, the instruction %.2f ns, ratio %.2f\n", ways[way].name,
               median(ours[way]), median(machine[way]), median(ratio[way]));
    printf("    guineacrumb_roots %.2f ns for eight, %.2f ns each, %.2f times as fast as guineacrumb_root\n",
           median(eight), median(eight) / LANES, median(gain));
    printf("(medians of %d repetitions, in turns, each of %d passes over %d normal numbers in random order)\n",
           REPETITIONS, PASSES, NUMBERS);
}

int main(int count, char **words) {
    if (count != 3) {
        fprintf(stderr, "usage: root_all PROCESSES STEP\n");
        return 2;
    }
    uint64_t processes = strtoull(words[1], NULL, 10);
    uint64_t step = strtoull(words[2], NULL, 10);
    if (processes < 1 || processes > MOST_PROCESSES || step < 1 || step >= PATTERNS) {
        fprintf(stderr, "root_all: PROCESSES is from 1 to %d, STEP from 1 to below 2^32\n", MOST_PROCESSES);
        return 2;
    }
    int agreed = 1;
    for (size_t i = 0; i < sizeof comparisons / sizeof *comparisons; i++)
        agreed &= compare_all(&comparisons[i], processes, step);
    time_all();
    return agreed ? 0 : 1;
}
