/* A call on a stack of its own, which is filled with a pattern before and can be looked at afterwards. */
#ifndef OWN_STACK_H
#define OWN_STACK_H

#include <stdint.h>
#include <stdio.h>
#include <stdlib.h>
#include <string.h>
#include <ucontext.h>

enum { OWN_STACK = 1 << 18 }; /* a call that copied records of 22 KB onto it would be seen to, and would not run over its end */

static _Alignas(64) uint8_t own_stack[OWN_STACK];

static inline void on_own_stack(void (*call)(void), uint8_t pattern) {
    static ucontext_t outside, inside;
    memset(own_stack, pattern, sizeof own_stack);
    if (getcontext(&inside) != 0) {
        puts("FAILED: no stack of its own for a call");
        exit(1);
    }
    inside.uc_stack.ss_sp = own_stack;
    inside.uc_stack.ss_size = sizeof own_stack;
    inside.uc_link = &outside;
    makecontext(&inside, call, 0);
    swapcontext(&outside, &inside);
}

#endif
