/* What the measuring programs share: scans by chance, the clock, and how they end where something is wrong. */
#ifndef COMMON_H
#define COMMON_H

#include "../hosts/c/stackfilter.h"
#include <stdio.h>
#include <stdlib.h>
#include <time.h>

#define SAMPLES SF_MOST_SAMPLES

static void refuse_to_go_on(const char *what) {
    fprintf(stderr, "bench: %s\n", what);
    exit(1);
}

static void demand(uint8_t number) {
    if (number != 0)
        refuse_to_go_on("a call was refused");
}

/* ---- inputs by chance, always the same */

static uint64_t state = 1986;

static unsigned below(unsigned bound) {
    state = state * 6364136223846793005u + 1442695040888963407u;
    return (unsigned)((state >> 32) * bound >> 32);
}

/* A slow wave with noise, and a spike now and then. */
static void make_scan(uint16_t *scan) {
    for (unsigned x = 0; x < SAMPLES; x++) {
        unsigned wave = x % 2048 < 1024 ? x % 1024 : 1023 - x % 1024;
        scan[x] = (uint16_t)(1000 + 10 * wave + below(200) + (below(20) == 0 ? below(40000) : 0));
    }
}

/* In ns. */
static double now(void) {
    struct timespec t;
    clock_gettime(CLOCK_MONOTONIC, &t);
    return 1e9 * (double)t.tv_sec + (double)t.tv_nsec;
}

#endif
