/* Runs a function on a stack of its own. */
#ifndef STACK_H
#define STACK_H

#include "states.h"
#include <sys/mman.h>
#include <ucontext.h>

typedef struct {
    char *low; /* lowest byte */
    size_t bytes;
} Stack;

static inline Stack new_stack(size_t bytes) {
    Stack s = {mmap(NULL, bytes, PROT_READ | PROT_WRITE, MAP_PRIVATE | MAP_ANONYMOUS, -1, 0), bytes};
    if (s.low == MAP_FAILED) cannot("find memory for a stack");
    return s;
}

enum { PAINT = 0xa7 };

static inline void paint(Stack s) { memset(s.low, PAINT, s.bytes); }

/* Where the stack pointer stood right before a call: what lies below is the call's. */
#define STACK_POINTER(at) __asm__ volatile("mov %%rsp, %0" : "=r"(at)::"memory")

/* The lowest byte of a painted stack that was written. */
static inline char *lowest_written(Stack s) {
    const uint64_t whole = 0x0101010101010101u * PAINT;
    size_t n = 0;
    while (n < s.bytes && memcmp(s.low + n, &whole, 8) == 0) n += 8;
    while (n < s.bytes && (unsigned char)s.low[n] == PAINT) n++;
    return s.low + n;
}

static ucontext_t stack_caller, stack_callee;
static void (*stack_run)(void *);
static void *stack_argument;

static void stack_begin(void) { stack_run(stack_argument); }

static inline void on_stack(Stack s, void (*run)(void *), void *argument) {
    stack_run = run;
    stack_argument = argument;
    if (getcontext(&stack_callee)) cannot("make a context");
    stack_callee.uc_stack.ss_sp = s.low;
    stack_callee.uc_stack.ss_size = s.bytes;
    stack_callee.uc_link = &stack_caller;
    makecontext(&stack_callee, stack_begin, 0);
    if (swapcontext(&stack_caller, &stack_callee)) cannot("change to a context");
}

#endif
