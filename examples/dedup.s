@ The de-duplicator: it is sent 10,000 messages and 40,000 echoes of them, and takes each message once.
@
@ A message carries a sequence number of 128 bits: four words, the lowest first. It is new exactly where
@ its number is above that of the last message taken. Numbers rise by a step with words of all sizes, so
@ the low words wrap around 2^32 again and again, and the high words tell nothing without the carry.
@
@ It ends with SWI 1: r0 the messages taken, r1 the echoes dropped.

        .section .start, "ax"
        .arm
        .equ    MESSAGES, 10000

@ r0      messages taken
@ r1      messages dropped
@ r2      messages still to be sent
@ r3      where the newest number and the one before it stand
@ r4-r7   number of the last message taken
@ r8-r11  number of the message that arrives
        .global _start
_start: mov     r0, #0
        mov     r1, #0
        ldr     r2, =MESSAGES
        adr     r3, newest
        ldmia   r3, {r4-r7}             @ the first number counts as taken

send:   ldmia   r3, {r8-r11}
        add     r12, r3, #16
        stmia   r12, {r8-r11}           @ the newest number becomes the one before,
        ldr     r12, step               @ and the step is added to it
        adds    r8, r8, r12
        ldr     r12, step + 4
        adcs    r9, r9, r12
        ldr     r12, step + 8
        adcs    r10, r10, r12
        ldr     r12, step + 12
        adc     r11, r11, r12
        stmia   r3, {r8-r11}

        bl      arrive                  @ the message
        bl      arrive                  @ its echo from the second broker
        add     r12, r3, #16
        ldmia   r12, {r8-r11}
        bl      arrive                  @ two late echoes of the message before
        bl      arrive
        ldmia   r3, {r8-r11}
        bl      arrive                  @ a late echo of this one

        subs    r2, r2, #1
        bne     send
        swi     #1

@ Last less arriving, over all four words: each SBCS takes the borrow of the words below.
@ C is clear at the end (a borrow is left over) exactly where the arriving number is above the last.
arrive: subs    r12, r4, r8
        sbcs    r12, r5, r9
        sbcs    r12, r6, r10
        .ifdef  WRONG
        subs    r12, r7, r11            @ wrong: the borrow of the three words below is lost
        .else
        sbcs    r12, r7, r11
        .endif
        addcs   r1, r1, #1              @ an echo
        bxcs    lr
        mov     r4, r8                  @ a new message: it is now the last
        mov     r5, r9
        mov     r6, r10
        mov     r7, r11
        add     r0, r0, #1
        bx      lr

step:   .word   0x9E3779B9, 0x7F4A7C15, 0x20000000, 0x00000000
newest: .word   0xFFFFFFF0, 0xFFFFFFFF, 0x00000000, 0x00000000
before: .word   0, 0, 0, 0
        .ltorg
