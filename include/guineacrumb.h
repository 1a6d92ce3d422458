/*
 * The functions of libguineacrumb.a, the static library of this repository, for C and C++ on x86-64
 * Linux. `rt lib --cpu x86-64` in crates/guineacrumb proves it and the crates below it, and writes the
 * archive to crates/guineacrumb/out/; `examples/install PREFIX` puts archive, header and pkg-config file
 * below PREFIX:
 *
 *     cc -Iinclude main.c crates/guineacrumb/out/libguineacrumb.a
 *     cc main.c $(pkg-config --cflags --libs guineacrumb)
 *
 * It wants no other library. Of C's own functions it calls those of the next line, which a program that
 * is linked without a C library has to bring, and no others:
 *
 *     wanted of C: memcpy memset
 *
 * The code is for every x86-64 processor; that of a plain `rt lib` is for x86-64-v2, which processors
 * since about 2009 are. `oracle/native TARGET` compiles the same program for aarch64, and says what speaks
 * for that code.
 * examples/ has programs in C and a crate in Rust that call each function.
 *
 * Lengths are in metres, times in seconds, speeds and velocities in metres a second.
 *
 * Nothing is kept between calls and nothing is allocated, so threads may call side by side.
 * guineacrumb_tick takes about 120,000 bytes of stack, guineacrumb_velocity less than 2,000. What is said
 * below holds in the floating-point environment that a C program starts in: rounding to nearest,
 * subnormals kept.
 */
#ifndef GUINEACRUMB_H
#define GUINEACRUMB_H

#include <stddef.h>
#include <stdint.h>

#ifdef __cplusplus
extern "C" {
#endif

/* The version, here and nowhere else: what else has one is made from these lines, or held against them. */
#define GUINEACRUMB_VERSION_MAJOR 0
#define GUINEACRUMB_VERSION_MINOR 2
#define GUINEACRUMB_VERSION_PATCH 0

/* The same as one number, a byte each: 0x000200 is 0.2.0. */
#define GUINEACRUMB_VERSION                                                                               \
    (GUINEACRUMB_VERSION_MAJOR << 16 | GUINEACRUMB_VERSION_MINOR << 8 | GUINEACRUMB_VERSION_PATCH)

/* The version of the library that is linked: GUINEACRUMB_VERSION, where this header is that library's. */
uint32_t guineacrumb_version(void);

/*
 * What a call answers. Each function says below which of these it gives, exactly when, and what its place
 * is; 8 to 12, 16 and 19 are answers of the programs beside the library, and none of these functions gives
 * them.
 */
enum guineacrumb_answer {
    GUINEACRUMB_DONE = 0,                 /* done */
    GUINEACRUMB_RAGGED_NEIGHBOURS = 1,    /* the neighbours are not a multiple of 8 numbers */
    GUINEACRUMB_SHORT_SCRATCH = 2,        /* scratch is too short */
    GUINEACRUMB_NOT_FINITE = 3,           /* a number is not finite */
    GUINEACRUMB_OUT_OF_RANGE = 4,         /* a number is below 0, or not above 0, that has to be */
    GUINEACRUMB_BAD_FALLBACK = 5,         /* the fallback is no direction of length 1 */
    GUINEACRUMB_PLANE_NOT_FINITE = 6,     /* a neighbour's plane is not finite */
    GUINEACRUMB_NO_VELOCITY = 7,          /* the velocity is not finite */
    GUINEACRUMB_NO_AGENT = 8,             /* there is no agent at the index */
    GUINEACRUMB_FULL = 9,                 /* there is no room for one more */
    GUINEACRUMB_TICK_OPEN = 10,           /* a tick is open */
    GUINEACRUMB_NO_TICK = 11,             /* no tick is open */
    GUINEACRUMB_UNPLANNED = 12,           /* an agent is not planned yet */
    GUINEACRUMB_POSITION_NOT_FINITE = 13, /* an agent would come to a position that is not finite */
    GUINEACRUMB_BAD_FILE = 14,            /* a file is no whole number of records, or has over 64 */
    GUINEACRUMB_BAD_MARGIN = 15,          /* a margin is neither 0 nor 1, or 0 with a distance */
    GUINEACRUMB_SHORT_BUFFER = 16,        /* a buffer is too short for what is written to it */
    GUINEACRUMB_TOO_MANY_NEIGHBOURS = 17, /* there are over 63 neighbours */
    GUINEACRUMB_BAD_CLAMP = 18,           /* a clamp's lower bound is not <= its upper */
    GUINEACRUMB_OUT_OF_REACH = 19,        /* a recorded number is not finite, or beyond 16384 */
    GUINEACRUMB_UNFIT = 255               /* a length that does not fit, or a rule that there is not */
};

/*
 * The square root of x: of the numbers that a float can hold, the nearest.
 *
 *     +0, -0                 themselves
 *     +infinity              itself
 *     below 0, -infinity     a NaN
 *     a NaN                  a NaN; its sign and payload are not promised
 *
 * errno is left alone.
 */
float guineacrumb_root(float x);

/* The numbers that guineacrumb_roots takes. */
#define GUINEACRUMB_ROOTS_LENGTH 8

/*
 * The square roots of eight numbers, in place: in the place of each number stands what guineacrumb_root gives
 * for it, whatever the others are. So zeros and +infinity stay as they are, what is below 0 becomes a NaN, and
 * a NaN becomes a NaN, whose sign and payload are not promised. The eight are worked out side by side, in less
 * time than by eight calls.
 *
 * The pointer is not null, and eight numbers are lent. errno is left alone.
 */
void guineacrumb_roots(float numbers[GUINEACRUMB_ROOTS_LENGTH]);

/* The numbers of a request, of an agent and of a velocity. */
#define GUINEACRUMB_REQUEST_LENGTH 17
#define GUINEACRUMB_AGENT_LENGTH 8
#define GUINEACRUMB_VELOCITY_LENGTH 3

/* At most so many neighbours, and the scratch numbers that n of them need. */
#define GUINEACRUMB_MOST_NEIGHBOURS 63
#define GUINEACRUMB_SCRATCH_LENGTH(n) (12 * (size_t)(n))

/* What stands for no plane, and for no neighbour. */
#define GUINEACRUMB_NO_PLANE UINT64_MAX
#define GUINEACRUMB_NO_NEIGHBOUR UINT64_MAX

/*
 * The velocity nearest to the preferred one that avoids the neighbours: `compute_avoiding_velocity` of the
 * Rust crate dodgy_3d.
 *
 * BEFORE YOU FLY IT (docs/SAFETY.md has the numbers). What is proved is that the answer is the defined one,
 * not that it is safe:
 *
 *     - nobody but the neighbours lent is avoided: lend the near ones. (The Rust's Simulator lends the far
 *       ones and skips the near ones.)
 *     - the speed may be above the maximum speed: no bound is promised, keep a limit of your own.
 *     - a velocity that is relaxed, or names a neighbour as unseen, may not keep clear of everybody.
 *     - a neighbour almost straight ahead may be lost by rounding: seen, and still not avoided.
 *
 * An agent is 8 numbers: position 0-2, velocity 3-5, radius 6, responsibility 7. What is lent:
 *
 *     request      17 numbers: the agent 0-7, the preferred velocity 8-10, the maximum speed 11, the time
 *                  step 12, the time horizon 13, and 14-16 the fallback, a direction of length 1 that is
 *                  taken where the Rust takes one by chance
 *     neighbours   their numbers, 8 to each, at most 63
 *     scratch      at least 12 numbers to each neighbour; what they hold alters no answer
 *     velocity     3 numbers, where the velocity is written
 *     place, relaxed, unseen   where the answer's place, the relaxed plane and the unseen neighbour are
 *                  written
 *
 * A length counts numbers, not bytes. No pointer is null, not even with a length of 0, and what is lent to
 * be written overlaps nothing else that is lent.
 *
 * The answer is a number:
 *
 *     number   given exactly when                                                  place
 *     0        the velocity is written                                             0
 *     1        the neighbours are not a multiple of 8 numbers                      0
 *     17       there are over 63 neighbours                                        their number
 *     2        scratch is shorter than 12 numbers to each neighbour                the numbers needed
 *     3        a number is not finite                                              see below
 *     4        a radius, a responsibility or the maximum speed is below 0, or
 *              the time step or the horizon is not above 0                         see below
 *     5        the fallback dotted with itself is below 0.99999 or above 1.00001   14
 *     6        a neighbour's plane has a component that is not finite              the first such neighbour
 *     18       a clamp's lower bound is not <= its upper, as where one is a NaN:
 *              there the Rust panics                                               the plane solved on
 *     7        the velocity is not finite                                          0
 *     255      request is not 17 numbers, or velocity not 3                        not written
 *
 * They are tried in this order, 255 first, each over all its numbers before the next. The place for 3 and 4
 * is the lowest bad one: 0-16 in the request, 17 + 8 * k + j for number j of neighbour k. Plane k is that of
 * neighbour k.
 *
 * What to do about a refusal; until then, the drone has no velocity from this call:
 *
 *     1, 2, 255   lend the lengths that are said above
 *     17          leave out the farthest neighbours until 63 are left
 *     3, 4, 5     mend the number at the place, or find out where it came from
 *     6           leave out the neighbour that the place names, or bring its numbers nearer to yours in size
 *     18          numbers of very different sizes met on the plane that the place names: look at that
 *                 neighbour, and at the maximum speed, first
 *     7           the same, with no one plane to name
 *
 * With 0, relaxed is the plane from which the velocity is relaxed, where the planes leave none free, and
 * GUINEACRUMB_NO_PLANE where it is free. A relaxed velocity may not give every neighbour the room that it
 * needs: it falls short by the least that the program found. A zero component is written as +0.
 *
 * With 0, unseen is the first neighbour that is unseen, and GUINEACRUMB_NO_NEIGHBOUR where all are seen.
 * UNSEEN MEANS NOT AVOIDED. Flying straight at a neighbour, faster than the horizon allows for, there is no
 * side to turn to: the plane's normal is zero, and the velocity that is written does not turn away from that
 * neighbour. Later neighbours may be unseen too: the planes in scratch whose normal is three zeros are those.
 * Such a plane can make the velocity relaxed, and can cost the neighbours after it some of their room. Whoever
 * flies the drone has to do something about it: hold, or fly a little to one side. What counts is the velocity
 * in the request, not the preferred one.
 *
 * With a refusal but 255, the velocity is three +0s, relaxed is GUINEACRUMB_NO_PLANE and unseen is
 * GUINEACRUMB_NO_NEIGHBOUR. With 255, nothing is written.
 *
 * Scratch, with n neighbours: 0 leaves their planes in its first 6n numbers, in order, each a point and a
 * normal, and +0 in the next 6n; 6, 18 and 7 leave +0 in its first 12n; 1, 17, 2 to 5 and 255 leave it as
 * it was. Numbers past 12n are never touched.
 */
uint32_t guineacrumb_velocity(const float *request, size_t request_length, const float *neighbours,
                              size_t neighbours_length, float *scratch, size_t scratch_length,
                              float *velocity, size_t velocity_length, uint64_t *place,
                              uint64_t *relaxed, uint64_t *unseen);

/* A fleet file: the bytes and the words of a record, and at most so many records. */
#define GUINEACRUMB_RECORD_BYTES 76
#define GUINEACRUMB_RECORD_WORDS 19
#define GUINEACRUMB_MOST_AGENTS 64

/* Whom an agent avoids in a tick. A hangar wants the near rule. */
enum guineacrumb_rule {
    /*
     * NOT TO FLY BY. As in the Rust, an agent avoids those that are FAR, farther away than own maximum
     * speed * own horizon + 2 * own radius, and SKIPS THOSE THAT ARE NEAR: it flies into them. It is
     * here so that what the Rust does can be worked out again.
     */
    GUINEACRUMB_RULE_SOURCE = 0,
    /*
     * An agent avoids those no farther away than (own maximum speed + the other's) * own horizon + own
     * radius + the other's radius: all who can touch it within its horizon.
     */
    GUINEACRUMB_RULE_NEAR = 1
};

/*
 * One tick of a fleet file, in place. The file is loaded, a tick of time_step is opened by the rule, every
 * agent is planned, in the order of the records, and the tick is closed. The file then has the fleet after
 * it: each agent's velocity is its plan's, its position is moved by that velocity * time_step, and all else
 * is kept.
 *
 * A fleet file is records of 76 bytes, at most 64 and no header; an empty file is a fleet of nobody. A
 * record is 19 words of 4 bytes, the least byte first, each but word 17 the binary32 pattern of a number:
 *
 *     0-2     position                     11      maximum speed
 *     3-5     velocity                     12      time horizon
 *     6       radius                       13-15   fallback, a direction of length 1
 *     7       responsibility               16      obstacle time horizon, which no tick reads
 *     8-10    goal; the preferred          17      margin, the whole number 0 or 1, which no tick reads
 *             velocity is goal - position  18      distance, which no tick reads; all bits 0 where word 17 is
 *
 * What is lent: the file, `length` bytes at any address, and place, where the answer's place is written.
 * Neither pointer is null, not even with a length of 0, and the two do not overlap.
 *
 * The answer is the first refusal, of the load, the opening, a plan or the close, with its place:
 *
 *     number   given exactly when                                               place
 *     255      rule is neither 0 nor 1                                          not written
 *
 *     14       the file is not a multiple of 76 bytes, or has over 64 records   length
 *     15       word 17 is neither 0 nor 1, or is 0 where word 18 is not         19 * record + 17 or 18
 *     3        a word, but 17, is not finite                                    19 * record + word
 *     4        word 6, 7 or 11 is below 0, or word 12 is not above 0            19 * record + word
 *     5        the fallback dotted with itself is below 0.99999 or above
 *              1.00001                                                          19 * record + 13
 *
 *     3        time_step is not finite                                          12
 *     4        time_step is not above 0                                         12
 *
 *     3        goal - position is not finite, in a plan                         8, 9 or 10
 *     6        a neighbour's plane is not finite, in a plan                     the neighbour's record
 *     18       a clamp's lower bound is not <= its upper, in a plan             the plane, as below
 *     7        the velocity is not finite, in a plan                            0
 *
 *     13       an agent would come to a position that is not finite             its record
 *     0        the tick is flown                                                0
 *
 * They are tried in this order, 15 to 5 on each record before the next, and 3 to 7 on each agent's plan.
 * Records, and with them agents, count from 0.
 *
 *     3 and 4 at 12        are word 12 of record 0, where time_step was checked before the call
 *     3 at 8, 9 or 10      is that word of record 0 where that is not finite; else it is of a plan, and some
 *                          agent's goal and position are too far apart
 *     3, 6, 18 and 7       name no planning agent; the plane of 18 counts those that it avoids, from 0
 *
 * A REFUSED CALL LEAVES EVERY BYTE OF THE FILE AS IT WAS. Nobody has moved then, and the fleet has no
 * velocities from this call.
 *
 * A tick does not say who is unseen. UNSEEN MEANS NOT AVOIDED, as is said above, by either rule: where that
 * has to be known, ask guineacrumb_velocity about the agent.
 */
uint32_t guineacrumb_tick(uint8_t *file, size_t length, float time_step, uint32_t rule, uint64_t *place);

#ifdef __cplusplus
}
#endif

#endif
