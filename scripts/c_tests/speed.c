/* speed ROUNDS FILE..: processor time of a call that fills the arrays, and of one that parses and fills none. */
#define _POSIX_C_SOURCE 200809L
#include "toml_span.h"

#include <stdio.h>
#include <stdlib.h>
#include <time.h>

static double now(void) {
    struct timespec time;
    clock_gettime(CLOCK_PROCESS_CPUTIME_ID, &time);
    return (double)time.tv_sec * 1e9 + (double)time.tv_nsec;
}

static double least(double a, double b) { return a < b ? a : b; }

int main(int argc, char **argv) {
    int rounds = argc > 2 ? atoi(argv[1]) : 0, slow = 0;
    for (int at = 2; at < argc; at++) {
        FILE *file = fopen(argv[at], "rb");
        char *text = malloc(TOML_SPAN_LONGEST);
        if (!file || !text) return 2;
        size_t length = fread(text, 1, TOML_SPAN_LONGEST, file);
        fclose(file);
        toml_span_counts counts = {0, 0};
        toml_span_fault fault;
        toml_span_node *nodes = malloc(sizeof *nodes);
        char *strings = malloc(1);
        if (toml_span_parse(text, length, nodes, 0, strings, 0, &counts, &fault)) return 2;
        nodes = realloc(nodes, counts.nodes * sizeof *nodes);
        strings = realloc(strings, counts.strings + 1);
        double alone = 1e18, filled = 1e18, counted = 1e18;
        for (int round = 0; round < rounds; round++) {
            double start = now();
            toml_span_check(text, length);
            double checked = now();
            toml_span_parse(text, length, nodes, counts.nodes, strings, counts.strings, &counts, &fault);
            double parsed = now();
            toml_span_parse(text, length, nodes, 0, strings, 0, &counts, &fault);
            double last = now();
            alone = least(alone, checked - start);
            filled = least(filled, parsed - checked);
            counted = least(counted, last - parsed);
        }
        double bytes = (double)length;
        printf("speed: %zu bytes, %zu records: to parse %.2f ns a byte, and to fill %.2f (%.2f times), to count %.2f\n",
               length, counts.nodes, alone / bytes, filled / bytes, filled / alone, counted / bytes);
        slow += filled > 1.2 * alone;
        free(text);
        free(nodes);
        free(strings);
    }
    return slow != 0;
}
