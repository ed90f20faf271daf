@ A spin lock: 1,000 turns, in each the lock is taken by LDREX and STREX, eight counters rise by one, the lock is given back.
@
@ In every tenth turn CLREX stands between load and store, as a switch of tasks would put it there: the store
@ fails, and the lock is tried again.
@
@ It ends with SWI 1: r0 the sum of the eight counters, r1 the stores that failed, r2 the lock.

        .section .start, "ax"
        .arm
        .equ    TURNS, 1000

@ r0      turns still to go
@ r1      stores that failed
@ r2      turns until the next switch of tasks
        .global _start
_start: ldr     sp, =stack_top
        ldr     r0, =TURNS
        mov     r1, #0
        mov     r2, #10

turn:   bl      take
        bl      count
        bl      give
        subs    r0, r0, #1
        bne     turn

        adr     r3, counters
        ldmia   r3, {r4-r11}
        add     r0, r4, r5
        add     r0, r0, r6
        add     r0, r0, r7
        add     r0, r0, r8
        add     r0, r0, r9
        add     r0, r0, r10
        add     r0, r0, r11
        ldr     r2, lock
        swi     #1

@ The lock is 0 where it is free. A store-exclusive gives 0 where it was done.
take:   adr     r3, lock
        mov     r6, #1
try:    ldrex   r4, [r3]
        cmp     r4, #0
        bne     try
        subs    r2, r2, #1
        bne     claim
        mov     r2, #11                 @ ten turns and the second try
        clrex
claim:  strex   r5, r6, [r3]
        cmp     r5, #0
        addne   r1, r1, #1
        bne     try
        bx      lr

give:   adr     r3, lock
        mov     r4, #0
        str     r4, [r3]
        bx      lr

@ The eight counters go through eight registers, whose own values wait on the stack.
count:  stmdb   sp!, {r4-r11, lr}
        adr     r3, counters
        ldmia   r3, {r4-r11}
        add     r4, r4, #1
        add     r5, r5, #1
        add     r6, r6, #1
        add     r7, r7, #1
        add     r8, r8, #1
        add     r9, r9, #1
        add     r10, r10, #1
        add     r11, r11, #1
        stmia   r3, {r4-r11}
        ldmia   sp!, {r4-r11, pc}

lock:   .word   0
counters:
        .word   0, 0, 0, 0, 0, 0, 0, 0
        .ltorg
