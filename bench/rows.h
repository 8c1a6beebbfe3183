/* How the measurements hand their figures on: a line each, its parts apart by tabs, which bench/run gathers into one table. Times are in
   nanoseconds; 0 stands for a figure that there is not. */
#ifndef ROWS_H
#define ROWS_H

#include <stdio.h>

static inline void print_row(const char *what, double proved, double plain, double library, double limit) {
    printf("row\t%s\t%.3f\t%.3f\t%.3f\t%.3f\n", what, proved, plain, library, limit);
}

/* What the proved code takes at one size; `parts` is how many bytes that is, or 0. */
static inline void print_growth(const char *what, double proved, double parts) {
    printf("growth\t%s\t%.3f\t%.0f\n", what, proved, parts);
}

#endif
