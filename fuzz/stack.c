/*
 * Measures how much stack calls take (stack.h), in two ways:
 *
 *   written   the call runs on a stack of its own that is filled with a pattern, once with each of two; the lowest byte that
 *             has changed says how deep it wrote
 *   reserved  the call runs one instruction at a time, and the lowest stack pointer says how far it reached down, written or
 *             not; on smaller inputs, since it is slow
 *
 * Both count from the frame of the caller, so the arguments that go over the stack are in them. Ends with a failure where a
 * call takes more than its bound. x86-64 Linux.
 */
#define _GNU_SOURCE
#include "stack.h"

#include <signal.h>
#include <stdio.h>
#include <stdlib.h>
#include <string.h>
#include <sys/mman.h>
#include <ucontext.h>

enum { ROOM = 1 << 18 };

static uint8_t *room;             /* the stack */
static uint8_t *frame;            /* the caller's frame on it */
static volatile uintptr_t lowest; /* the lowest stack pointer met while stepping */
static bool stepping;
static void (*call)(void);

static void on_step(int number, siginfo_t *info, void *context)
{
    (void)number, (void)info;
    uintptr_t pointer = (uintptr_t)((ucontext_t *)context)->uc_mcontext.gregs[REG_RSP];
    if (pointer < lowest)
        lowest = pointer;
}

static inline void trap_flag(bool set)
{
    if (set)
        __asm__ volatile("pushfq; orq $0x100, (%%rsp); popfq" ::: "memory", "cc");
    else
        __asm__ volatile("pushfq; andq $~0x100, (%%rsp); popfq" ::: "memory", "cc");
}

static void caller(void)
{
    frame = __builtin_frame_address(0);
    if (stepping)
        trap_flag(true);
    call();
    if (stepping)
        trap_flag(false);
}

static void run_on_room(void)
{
    ucontext_t here, there;
    getcontext(&there);
    there.uc_stack.ss_sp = room;
    there.uc_stack.ss_size = ROOM;
    there.uc_link = &here;
    makecontext(&there, caller, 0);
    swapcontext(&here, &there);
}

static size_t written_with(uint8_t pattern)
{
    memset(room, pattern, ROOM);
    stepping = false;
    run_on_room();
    size_t first = 0;
    while (first < ROOM && room[first] == pattern)
        first++;
    return (size_t)(frame - (room + first));
}

static size_t reserved(void)
{
    lowest = UINTPTR_MAX;
    stepping = true;
    run_on_room();
    return (size_t)((uintptr_t)frame - lowest);
}

static struct {
    unsigned cases, steps;
    size_t written, reserved;
} most;

static size_t larger(size_t a, size_t b)
{
    return a > b ? a : b;
}

void measure(bool by_steps)
{
    if (by_steps) {
        most.reserved = larger(most.reserved, reserved());
        most.steps++;
        return;
    }
    most.written = larger(most.written, larger(written_with(0xa5), written_with(0x5a)));
    most.cases++;
}

static void prepare(void)
{
    static uint8_t signal_stack[1 << 16];
    room = mmap(NULL, ROOM, PROT_READ | PROT_WRITE, MAP_PRIVATE | MAP_ANONYMOUS, -1, 0);
    stack_t own = {.ss_sp = signal_stack, .ss_size = sizeof signal_stack};
    struct sigaction action = {.sa_sigaction = on_step, .sa_flags = SA_SIGINFO | SA_ONSTACK};
    if (room == MAP_FAILED || sigaltstack(&own, NULL) != 0 || sigaction(SIGTRAP, &action, NULL) != 0) {
        perror("stack");
        exit(2);
    }
    make_inputs();
}

int main(void)
{
    bool within = true;
    prepare();
    printf("%-28s%8s%8s%10s%8s%10s\n", "call", "bound", "cases", "written", "cases", "reserved");
    for (size_t k = 0; k < measured_count; k++) {
        memset(&most, 0, sizeof most);
        call = measured[k].call;
        measured[k].over(false);
        measured[k].over(true);
        size_t bound = measured[k].bound;
        within = within && most.written <= bound && most.reserved <= bound;
        printf("%-28s%8zu%8u%10zu%8u%10zu\n", measured[k].name, bound, most.cases, most.written, most.steps, most.reserved);
        fflush(stdout);
    }
    puts(within ? "each call takes at most its bound of stack" : "a call takes more than its bound of stack");
    return !within;
}
