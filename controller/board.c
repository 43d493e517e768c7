/*
 * The driver on the board: start-up, and files and printing by semihosting, by which the emulator does what the program asks of
 * it. At the end the file `stack` gets a line a call, or a call's reduction: its name, the most bytes of stack that it wrote,
 * how often it was made.
 */
#include <string.h>

#include "calls.h"
#include "machine.h"

enum { SYS_OPEN = 0x01, SYS_CLOSE = 0x02, SYS_WRITE = 0x05, SYS_READ = 0x06, SYS_EXIT_EXTENDED = 0x20 };
enum { READ = 1, WRITE = 5 }; /* how a file is opened: rb, wb */

/* ---- semihosting */

/* Asks the emulator. The word before the halt is the one that Arm's document on semihosting names for these processors. */
static uint32_t ask(uint32_t operation, const void *parameters)
{
    register uint32_t r0 __asm__("r0") = operation;
    register const void *r1 __asm__("r1") = parameters;
    __asm__ volatile("bkpt 0xab" : "+r"(r0) : "r"(r1) : "memory");
    return r0;
}

__attribute__((noreturn)) static void leave(uint32_t status)
{
    const uint32_t parameters[] = {0x20026, status}; /* the application ends by itself */
    for (;;)
        ask(SYS_EXIT_EXTENDED, parameters);
}

static uint32_t opened(const char *name, uint32_t mode)
{
    const uint32_t parameters[] = {(uint32_t)name, mode, strlen(name)};
    uint32_t handle = ask(SYS_OPEN, parameters);
    if (handle == UINT32_MAX)
        leave(2);
    return handle;
}

static void closed(uint32_t handle)
{
    ask(SYS_CLOSE, &handle);
}

static void written(uint32_t handle, const void *bytes, size_t len)
{
    const uint32_t parameters[] = {handle, (uint32_t)bytes, len};
    if (ask(SYS_WRITE, parameters) != 0) /* how many bytes were not written */
        leave(2);
}

/* ---- what the driver asks for */

static uint32_t console, answers;

size_t read_list(uint8_t *room)
{
    uint32_t list = opened("list", READ);
    const uint32_t parameters[] = {list, (uint32_t)room, LIST_ROOM};
    uint32_t left = ask(SYS_READ, parameters);
    closed(list);
    return left <= LIST_ROOM ? (LIST_ROOM - left) % LIST_ROOM : 0;
}

void print(const void *bytes, size_t len)
{
    written(console, bytes, len);
}

void keep(const void *bytes, size_t len)
{
    written(answers, bytes, len);
}

/* ---- the stack's table */

#define NAME(name) #name,
#define NAMES(name) #name, #name ":grey", #name ":opaque_colour",
static const char *const names[] = {EACH_CALL(NAME, NAMES)};

extern const uint32_t stack_most[], stack_calls[];

static void write_number(uint32_t file, uint32_t n)
{
    char digits[11], *at = digits + sizeof digits;
    do
        *--at = (char)('0' + n % 10);
    while ((n /= 10) != 0);
    *--at = ' ';
    written(file, at, (size_t)(digits + sizeof digits - at));
}

static void write_stack(void)
{
    uint32_t file = opened("stack", WRITE);
    for (size_t i = 0; i < sizeof names / sizeof names[0]; i++) {
        written(file, names[i], strlen(names[i]));
        write_number(file, stack_most[i]);
        write_number(file, stack_calls[i]);
        written(file, "\n", 1);
    }
    closed(file);
}

/* ---- start-up */

extern uint32_t bss_start[], bss_end[], stack_top[];

__attribute__((noreturn)) void start(void)
{
    volatile uint32_t *const access = (volatile uint32_t *)0xe000ed88;
    *access |= 0xf << 20; /* the floating-point unit is off at first */
    __asm__ volatile("dsb; isb");
    for (uint32_t *word = bss_start; word < bss_end; word++)
        *word = 0;
    console = opened(":tt", WRITE);
    answers = opened("answers", WRITE);
    int status = drive();
    closed(answers);
    write_stack();
    leave((uint32_t)status);
}

__attribute__((noreturn)) static void fault(void)
{
    leave(3);
}

/* The processor begins with the stack pointer and the start that stand first; any exception, a fault for one, ends the run. */
__attribute__((section(".vectors"), used)) static const struct {
    uint32_t *stack;
    void (*start)(void);
    void (*exceptions[14])(void);
} vectors = {
    stack_top,
    start,
    {fault, fault, fault, fault, fault, fault, fault, fault, fault, fault, fault, fault, fault, fault},
};
