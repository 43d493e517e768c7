/*
 * Measures the stack that each call takes on the board. The program is linked with --wrap for each call of the interface, so
 * that it comes here first. What is below the stack pointer is painted, the call is made with the arguments as they are, and
 * the lowest word that has changed says how deep it wrote, counted from the stack pointer at its entry. Nothing here uses the
 * stack. Two paints take turns, so that what looks like one does not look like the other.
 */
#include "calls.h"

    .equ    PAINT, 0xa5a5a5a5

    .syntax unified
    .thumb
    .text

/* Paints from the stack's floor up to the stack pointer. Arguments are in r0 to r3 and s0 to s15, so it takes others. */
    .thumb_func
paint:
    ldr     r4, =stack_floor
    ldr     r6, =turn
    ldr     r5, [r6]
    mvn     r5, r5
    str     r5, [r6]
    eor     r5, #PAINT
    mov     r7, sp
1:  cmp     r4, r7
    it      hs
    bxhs    lr
    str     r5, [r4], #4
    b       1b

/* Finds the lowest word that has changed, and keeps the most for the call whose number is in r2. The result is in r0 or s0. */
    .thumb_func
measured:
    ldr     r1, =stack_floor
    ldr     r3, =turn
    ldr     r3, [r3]
    eor     r3, #PAINT
    mov     lr, sp
2:  cmp     r1, lr
    beq     3f
    ldr     ip, [r1]
    cmp     ip, r3
    bne     3f
    adds    r1, #4
    b       2b
3:  sub     r1, lr, r1
    ldr     r3, =stack_most
    ldr     ip, [r3, r2, lsl #2]
    cmp     r1, ip
    it      hi
    strhi   r1, [r3, r2, lsl #2]
    ldr     r3, =stack_calls
    ldr     ip, [r3, r2, lsl #2]
    add     ip, #1
    str     ip, [r3, r2, lsl #2]
    ldr     ip, =registers
    ldr     lr, [ip, #16]
    bx      lr

    .set    number, 0
/* A call with so many rows, of which the second argument chooses one; the first where it is above them. */
    .macro  way name, rows
    .global __wrap_\name
    .thumb_func
__wrap_\name:
    ldr     ip, =registers
    stm     ip, {r4, r5, r6, r7, lr}
    str     r1, [ip, #20]
    bl      paint
    ldr     ip, =registers
    ldm     ip, {r4, r5, r6, r7}
    bl      __real_\name
    movs    r2, #number
    ldr     ip, =registers
    ldr     r1, [ip, #20]
    cmp     r1, #\rows
    it      lo
    addlo   r2, r1
    b       measured
    .set    number, number + \rows
    .ltorg
    .endm

#define WAY(name) way name, 1;
#define WAYS(name) way name, 3;
EACH_CALL(WAY, WAYS)

    .bss
    .balign 4
registers:
    .space  24
turn:
    .space  4
    .global stack_most
stack_most:
    .space  4 * number
    .global stack_calls
stack_calls:
    .space  4 * number
