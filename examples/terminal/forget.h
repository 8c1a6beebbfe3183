/* Secrets that are no longer needed must not stay in memory. */
#ifndef FORGET_H
#define FORGET_H

#include <stddef.h>

/* Clears memory; a compiler may not leave it out. */
void forget(void *memory, size_t len);

/* Clears the stack that a call of the keeper used. A call leaves there what it worked with, the bytes of a read among it. To be called
 * by the function that made the call, or by one that called that one. */
void forget_stack(void);

#endif
