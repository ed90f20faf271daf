@ What runs before main of a C example, and after it: its result is handed out in r0 and r1 by SWI 1.
        .section .start, "ax"
        .arm
        .global _start
_start: ldr   sp, =stack_top
        ldr   r0, =bss_start
        ldr   r1, =bss_end
        mov   r2, #0
clear:  cmp   r0, r1
        strlo r2, [r0], #4
        blo   clear
        bl    main
        swi   #1
        .ltorg
