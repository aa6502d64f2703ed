/* How much of the stack a call takes. */
#ifndef STACK_H
#define STACK_H

#include <stddef.h>
#include <stdlib.h>
#include <string.h>
#include <ucontext.h>

/* what stacker.h says of the stack */
enum { STACK_MOST = 65536 };

/* The bytes of stack down to the deepest that the call has written: it runs on a stack of its own, painted before. */
static inline size_t stack_of(void (*call)(void))
{
    enum { ROOM = 2 * STACK_MOST, PAINT = 165 };
    static unsigned char stack[ROOM];
    static ucontext_t back, there;
    memset(stack, PAINT, ROOM);
    if (getcontext(&there) != 0)
        exit(2);
    there.uc_stack.ss_sp = stack;
    there.uc_stack.ss_size = ROOM;
    there.uc_link = &back;
    makecontext(&there, call, 0);
    if (swapcontext(&back, &there) != 0)
        exit(2);
    size_t bare = 0;
    while (bare < ROOM && stack[bare] == PAINT)
        bare++;
    return ROOM - bare;
}

#endif
