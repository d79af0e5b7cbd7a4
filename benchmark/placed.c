/*
 * The least time of a report in some rounds: placed SHEET TIMES ROUNDS. Prints nanoseconds a report. benchmark/placed links it with
 * one archive, behind so many bytes that are never run.
 */
#include <stdio.h>
#include <stdlib.h>
#include <time.h>

#include "wiltoresh.h"

static uint8_t sheet[65536];
static uint8_t space[4096];

static double now(void)
{
    struct timespec t;
    clock_gettime(CLOCK_MONOTONIC, &t);
    return t.tv_sec * 1e9 + t.tv_nsec;
}

static double round_of(size_t length, long times)
{
    double start = now();
    for (long i = 0; i < times; i++) {
        size_t line, report_length;
        wiltoresh_report(sheet, length, space, sizeof space, &line, &report_length);
        __asm__ volatile("" : : "r"(space) : "memory");
    }
    return (now() - start) / times;
}

int main(int argc, char **argv)
{
    FILE *file = argc == 4 ? fopen(argv[1], "rb") : NULL;
    if (file == NULL) {
        fprintf(stderr, "usage: placed SHEET TIMES ROUNDS\n");
        return 2;
    }
    size_t length = fread(sheet, 1, sizeof sheet, file);
    long times = atol(argv[2]);
    double least = round_of(length, times);
    for (int i = 1; i < atoi(argv[3]); i++) {
        double took = round_of(length, times);
        least = took < least ? took : least;
    }
    printf("%.3f\n", least);
    return 0;
}
