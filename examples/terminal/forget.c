#include "forget.h"

#include "../../include/nk.h"

enum { OWN_FRAMES = 512 }; /* what lies between the function that forgets and the call */

void forget(void *memory, size_t len) {
    volatile uint8_t *byte = memory;
    while (len-- > 0) *byte++ = 0;
}

/* Its frame lies where those of the call and of its callers lay. */
#if defined __GNUC__
__attribute__((noinline))
#endif
void forget_stack(void) {
    volatile uint64_t below[(NK_STACK_MOST + OWN_FRAMES) / sizeof(uint64_t)];
    for (size_t i = 0; i < sizeof below / sizeof *below; i++) below[i] = 0;
}
