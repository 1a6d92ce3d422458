/*
 * A start for a program in C: the worked examples of document 01 that need one neighbour, and three
 * refusals, through the static library. examples/run builds it and compares what it prints with examples/stdout.
 */
#include <inttypes.h>
#include <stdio.h>
#include <string.h>

#include "guineacrumb.h"

struct agent {
    float position[3], velocity[3], radius, responsibility;
};

/* The numbers of a request, in the order in which the library takes them. */
struct request {
    struct agent agent;
    float preferred[3], max_speed, time_step, horizon, fallback[3];
};

_Static_assert(sizeof(struct agent) == GUINEACRUMB_AGENT_LENGTH * sizeof(float), "no gaps");
_Static_assert(sizeof(struct request) == GUINEACRUMB_REQUEST_LENGTH * sizeof(float), "no gaps");

/* One more than a call takes. */
enum { TOO_MANY = GUINEACRUMB_MOST_NEIGHBOURS + 1 };

static void show(const char *name, const struct request *request, const struct agent *neighbours,
                 size_t count) {
    float scratch[GUINEACRUMB_SCRATCH_LENGTH(TOO_MANY)];
    float velocity[GUINEACRUMB_VELOCITY_LENGTH];
    uint64_t place, relaxed, unseen;
    uint32_t answer = guineacrumb_velocity(
        (const float *)request, GUINEACRUMB_REQUEST_LENGTH, (const float *)neighbours,
        count * GUINEACRUMB_AGENT_LENGTH, scratch, GUINEACRUMB_SCRATCH_LENGTH(TOO_MANY), velocity,
        GUINEACRUMB_VELOCITY_LENGTH, &place, &relaxed, &unseen);
    printf("%s: ", name);
    if (answer != 0) {
        printf("refused, %" PRIu32 " at %" PRIu64 "\n", answer, place);
        return;
    }
    printf("velocity %g %g %g, ", velocity[0], velocity[1], velocity[2]);
    if (relaxed == GUINEACRUMB_NO_PLANE)
        printf("free");
    else
        printf("relaxed from plane %" PRIu64, relaxed);
    if (unseen != GUINEACRUMB_NO_NEIGHBOUR)
        printf(", neighbour %" PRIu64 " NOT AVOIDED", unseen);
    printf("\n");
}

int main(void) {
    if (guineacrumb_version() != GUINEACRUMB_VERSION) {
        fputs("velocity: the header is of another version than the library\n", stderr);
        return 2;
    }

    float root = guineacrumb_root(2.0f);
    uint32_t word;
    memcpy(&word, &root, sizeof word);
    printf("the root of 2: %08" PRIx32 "\n", word);

    float numbers[GUINEACRUMB_ROOTS_LENGTH] = {0, 1, 2, 3, 4, 5, 6, 7};
    guineacrumb_roots(numbers);
    printf("the roots of 0 to 7:");
    for (int i = 0; i < GUINEACRUMB_ROOTS_LENGTH; i++) {
        memcpy(&word, &numbers[i], sizeof word);
        printf(" %08" PRIx32, word);
    }
    printf("\n");

    struct request request = {
        .agent = {.radius = 1, .responsibility = 1},
        .max_speed = 2,
        .time_step = 0.5f,
        .horizon = 2,
        .fallback = {0, 0, 1},
    };
    struct agent neighbour = {.position = {4, 0, 0}, .radius = 1, .responsibility = 1};
    const float preferred[] = {0.5f, 1, 1.5f, 4};
    for (int i = 0; i < 4; i++) {
        request.preferred[0] = preferred[i];
        show("a neighbour ahead", &request, &neighbour, 1);
    }

    request.preferred[0] = 0;
    request.max_speed = 1;
    neighbour.position[0] = 0;
    show("a neighbour at the same place", &request, &neighbour, 1);

    request.time_step = 0;
    show("a time step of 0", &request, &neighbour, 1);

    static const struct agent many[TOO_MANY];
    request.time_step = 1;
    show("too many neighbours", &request, many, TOO_MANY);

    /* Flying at a neighbour head-on, past where it can be turned from. */
    struct request fast = {
        .agent = {.velocity = {10, 0, 0}, .radius = 2, .responsibility = 1},
        .preferred = {10, 0, 0},
        .max_speed = 10,
        .time_step = 0.5f,
        .horizon = 1,
        .fallback = {0, 0, 1},
    };
    const struct agent ahead = {.position = {5, 0, 0}, .radius = 1, .responsibility = 1};
    show("a neighbour head-on", &fast, &ahead, 1);

    /* Two neighbours at the same place, one of them far too fast. */
    request.horizon = 1;
    request.agent.velocity[1] = 1;
    request.fallback[0] = 1;
    request.fallback[2] = 0;
    const struct agent points[] = {{.radius = 0}, {.velocity = {0, 0, 4.7157917e22f}}};
    show("a bad pair of bounds", &request, points, 2);
    return 0;
}
