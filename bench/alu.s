# Work on registers: TURNS turns of five instructions.
# EXIT is the number of the exit call: 3 for an image, 93 for Linux.
        .globl _start
_start: li      t0, 0
        li      t1, TURNS
        li      t2, 0
1:      mul     t3, t0, t0
        add     t2, t2, t3
        xor     t2, t2, t0
        addi    t0, t0, 1
        bltu    t0, t1, 1b
        andi    a0, t2, 127
        li      a7, EXIT
        ecall
