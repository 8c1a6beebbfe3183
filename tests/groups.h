/* Groups of checks, as the C tests count them: a group is one line of output, and the last line counts the groups. */
#ifndef GROUPS_H
#define GROUPS_H

#include <stdarg.h>
#include <stdio.h>

static unsigned groups_passed, groups_failed, checks, faults;
static const char *group;

static inline void begin(const char *name) {
    group = name;
    checks = faults = 0;
}

static inline void end(void) {
    if (faults == 0) groups_passed++; else groups_failed++;
    printf("%s: %s, %u checks", faults ? "FAILED" : "ok", group, checks);
    if (faults) printf(", %u of them failed", faults);
    puts("");
}

/* The first few faults of a group are shown. */
enum { SHOWN = 8 };

#if defined __GNUC__
__attribute__((format(printf, 2, 3)))
#endif
static inline int check(int holds, const char *what, ...) {
    checks++;
    if (holds) return 1;
    if (++faults <= SHOWN) {
        va_list words;
        va_start(words, what);
        printf("  %s: ", group);
        vprintf(what, words);
        puts("");
        va_end(words);
    }
    return 0;
}

/* What main returns. */
static inline int counted(void) {
    printf("%u passed, %u failed\n", groups_passed, groups_failed);
    return groups_failed ? 1 : 0;
}

#endif
