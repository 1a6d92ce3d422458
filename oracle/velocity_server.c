/*
 * Makes calls of guineacrumb_velocity and guineacrumb_tick for programs that don't link the library: so they need not
 * know what compiled it, nor for which processor.
 *
 * It reads batches from standard input until that ends, and writes what comes of each to standard output
 * once it has read the batch whole. All is words of 4 bytes, least byte first:
 *
 *     a batch    its kind (1 calls, 2 times, 3 flights, 4 times of flights), passes, the number of calls or
 *                flights, then each
 *     a call     the lengths of request, neighbours, scratch and velocity, then the numbers of each
 *     a reply    to a batch of calls, for each: the answer, whether anything was written that was not lent
 *                to be written, place, relaxed plane and unseen neighbour (two words each), scratch, velocity
 *     a flight   how many ticks it has, the number of words of its fleet file, then the words
 *     a reply    to a batch of flights, for each: the answer of the last tick that was made, and the words of the
 *                file after it
 *     a time     to a batch of times: nanoseconds for so many passes over the calls or flights (two words)
 *
 * Timed calls share one scratch, which is not cleared between them, and have their request and neighbours
 * where they were read to.
 *
 * A flight is calls of guineacrumb_tick one after another, each on the bytes that the one before left, of 0.5 by the
 * source rule, which is the published Rust's. It begins with its file copied from where it was read to, which is timed
 * with it, and a tick that is refused ends it.
 *
 * The exit status is 0 where the input ended after a batch.
 */
#define _DEFAULT_SOURCE
#include <stdint.h>
#include <stdio.h>
#include <stdlib.h>
#include <string.h>
#include <time.h>

#include "guineacrumb.h"

enum { CALLS = 1, TIMES = 2, FLIGHTS = 3, FLIGHT_TIMES = 4 };

/* What is lent to a call, in this order. */
enum { REQUEST, NEIGHBOURS, SCRATCH, VELOCITY, LENT };

/* Numbers on either side of each thing lent, which no call may change. */
#define GUARDS 8
#define GUARD 0x5A5A5A5Au

/* What place, relaxed plane and unseen neighbour hold before a call. */
#define UNWRITTEN 0xA5A5A5A5A5A5A5A5u

_Static_assert(sizeof(float) == sizeof(uint32_t), "a number is a word");

/* A list of words that grows. */
struct words {
    uint32_t *at;
    size_t length, room;
};

/* One call: where in the batch's words each thing lent begins, and its length. */
struct call {
    size_t start[LENT];
    uint32_t length[LENT];
};

/* One flight: where in the batch's words its file begins, and how many words it has. */
struct flight {
    size_t start;
    uint32_t ticks, length;
};

static void stop(const char *why) {
    fprintf(stderr, "velocity_server: %s\n", why);
    exit(1);
}

/* Makes room for `more` words, and returns where they begin. */
static uint32_t *extend(struct words *words, size_t more) {
    if (words->room - words->length < more) {
        words->room = 2 * words->room + more;
        words->at = realloc(words->at, words->room * sizeof *words->at);
        if (words->at == NULL)
            stop("no memory");
    }
    words->length += more;
    return words->at + words->length - more;
}

static void append(struct words *words, const void *from, size_t count) {
    memcpy(extend(words, count), from, count * sizeof(uint32_t));
}

/* Whether so many words could be read: an end of input before the first is none, a later one stops. */
static int read_words(uint32_t *to, size_t count) {
    size_t got = fread(to, sizeof *to, count, stdin);
    if (got != count && (got != 0 || !feof(stdin)))
        stop("the input ends within a batch");
    return got == count;
}

static void must_read(uint32_t *to, size_t count) {
    if (!read_words(to, count))
        stop("the input ends within a batch");
}

/* Reads a call, each thing lent with guards around it. */
static struct call read_call(struct words *memory) {
    struct call call;
    must_read(call.length, LENT);
    for (int i = 0; i < LENT; i++) {
        uint32_t *to = extend(memory, call.length[i] + 2 * GUARDS);
        call.start[i] = memory->length - call.length[i] - GUARDS;
        for (int k = 0; k < GUARDS; k++)
            to[k] = to[GUARDS + call.length[i] + k] = GUARD;
        must_read(to + GUARDS, call.length[i]);
    }
    return call;
}

static float *lent(struct words *memory, const struct call *call, int i) {
    return (float *)(memory->at + call->start[i]);
}

static uint32_t make(struct words *memory, const struct call *call, uint64_t *place, uint64_t *relaxed,
                     uint64_t *unseen) {
    return guineacrumb_velocity(lent(memory, call, REQUEST), call->length[REQUEST],
                                lent(memory, call, NEIGHBOURS), call->length[NEIGHBOURS],
                                lent(memory, call, SCRATCH), call->length[SCRATCH],
                                lent(memory, call, VELOCITY), call->length[VELOCITY], place, relaxed, unseen);
}

/* Whether the words that a call leaves differ from those before it where nothing was lent to be written. */
static uint32_t strayed(const struct words *memory, const struct words *before, const struct call *call) {
    const uint32_t *now = memory->at, *then = before->at;
    size_t first = call->start[REQUEST] - GUARDS;
    size_t scratch = call->start[SCRATCH], scratch_end = scratch + call->length[SCRATCH];
    size_t velocity = call->start[VELOCITY], velocity_end = velocity + call->length[VELOCITY];
    return memcmp(now + first, then + first, (scratch - first) * sizeof *now) != 0 ||
           memcmp(now + scratch_end, then + scratch_end, (velocity - scratch_end) * sizeof *now) != 0 ||
           memcmp(now + velocity_end, then + velocity_end, GUARDS * sizeof *now) != 0;
}

static void reply(struct words *memory, const struct words *before, const struct call *call,
                  struct words *replies) {
    uint64_t written[] = {UNWRITTEN, UNWRITTEN, UNWRITTEN};
    uint32_t first[2];
    first[0] = make(memory, call, &written[0], &written[1], &written[2]);
    first[1] = strayed(memory, before, call);
    append(replies, first, 2);
    append(replies, written, 6);
    append(replies, memory->at + call->start[SCRATCH], call->length[SCRATCH]);
    append(replies, memory->at + call->start[VELOCITY], call->length[VELOCITY]);
}

static uint64_t now(void) {
    struct timespec t;
    clock_gettime(CLOCK_MONOTONIC, &t);
    return (uint64_t)t.tv_sec * 1000000000u + (uint64_t)t.tv_nsec;
}

/* What the timed calls gave: a store that the compiler may not leave out. */
static volatile uint32_t sink;

static uint64_t time_of(struct words *memory, struct call *calls, size_t count, uint32_t passes) {
    uint64_t place, relaxed, unseen;
    uint32_t mixed = 0;
    for (size_t i = 1; i < count; i++) {
        if (calls[i].length[SCRATCH] > calls[0].length[SCRATCH])
            stop("the first call of a batch that is timed has to have the longest scratch");
        calls[i].start[SCRATCH] = calls[0].start[SCRATCH];
    }
    uint64_t start = now();
    for (uint32_t pass = 0; pass < passes; pass++)
        for (size_t i = 0; i < count; i++)
            mixed ^= make(memory, &calls[i], &place, &relaxed, &unseen);
    uint64_t end = now();
    sink = mixed;
    return end - start;
}

static struct flight read_flight(struct words *memory) {
    struct flight flight;
    uint32_t head[2];
    must_read(head, 2);
    flight.ticks = head[0];
    flight.length = head[1];
    if (flight.length > GUINEACRUMB_RECORD_WORDS * GUINEACRUMB_MOST_AGENTS)
        stop("a fleet file of over 64 records");
    must_read(extend(memory, flight.length), flight.length);
    flight.start = memory->length - flight.length;
    return flight;
}

/* Flies a copy of the flight's file, and returns the answer of the last tick. */
static uint32_t fly(const struct words *memory, const struct flight *flight, uint32_t *file) {
    uint32_t answer = GUINEACRUMB_DONE;
    uint64_t place;
    size_t length = flight->length * sizeof *file;
    memcpy(file, memory->at + flight->start, length);
    for (uint32_t tick = 0; tick < flight->ticks && answer == GUINEACRUMB_DONE; tick++)
        answer = guineacrumb_tick((uint8_t *)file, length, 0.5f, GUINEACRUMB_RULE_SOURCE, &place);
    return answer;
}

static uint64_t time_of_flights(const struct words *memory, const struct flight *flights, size_t count,
                                uint32_t passes, uint32_t *file) {
    uint32_t mixed = 0;
    uint64_t start = now();
    for (uint32_t pass = 0; pass < passes; pass++)
        for (size_t i = 0; i < count; i++)
            mixed ^= fly(memory, &flights[i], file);
    uint64_t end = now();
    sink = mixed;
    return end - start;
}

/* Reads the calls of a batch, and makes them. */
static void make_calls(uint32_t kind, uint32_t passes, uint32_t count, struct words *replies) {
    static struct words memory, before;
    static struct call *calls;
    memory.length = before.length = 0;
    calls = realloc(calls, (count + 1) * sizeof *calls);
    if (calls == NULL)
        stop("no memory");
    for (uint32_t i = 0; i < count; i++)
        calls[i] = read_call(&memory);
    append(&before, memory.at, memory.length);
    if (kind == CALLS) {
        for (uint32_t i = 0; i < count; i++)
            reply(&memory, &before, &calls[i], replies);
    } else {
        uint64_t time = time_of(&memory, calls, count, passes);
        append(replies, &time, 2);
    }
}

/* Reads the flights of a batch, and makes them. */
static void make_flights(uint32_t kind, uint32_t passes, uint32_t count, struct words *replies) {
    static struct words memory;
    static struct flight *flights;
    uint32_t file[GUINEACRUMB_RECORD_WORDS * GUINEACRUMB_MOST_AGENTS];
    memory.length = 0;
    flights = realloc(flights, (count + 1) * sizeof *flights);
    if (flights == NULL)
        stop("no memory");
    for (uint32_t i = 0; i < count; i++)
        flights[i] = read_flight(&memory);
    if (kind == FLIGHTS) {
        for (uint32_t i = 0; i < count; i++) {
            uint32_t answer = fly(&memory, &flights[i], file);
            append(replies, &answer, 1);
            append(replies, file, flights[i].length);
        }
    } else {
        uint64_t time = time_of_flights(&memory, flights, count, passes, file);
        append(replies, &time, 2);
    }
}

int main(void) {
    struct words replies = {0};
    uint32_t head[3];
    while (read_words(head, 3)) {
        uint32_t kind = head[0], passes = head[1], count = head[2];
        replies.length = 0;
        if (kind == CALLS || kind == TIMES)
            make_calls(kind, passes, count, &replies);
        else if (kind == FLIGHTS || kind == FLIGHT_TIMES)
            make_flights(kind, passes, count, &replies);
        else
            stop("an unknown kind of batch");
        fwrite(replies.at, sizeof *replies.at, replies.length, stdout);
        if (fflush(stdout) != 0)
            stop("the output could not be written");
    }
    return 0;
}
