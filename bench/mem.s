# Loads and stores: TURNS turns of ten instructions over a table of 1 KiB at TABLE * 4096.
# EXIT is the number of the exit call: 3 for an image, 93 for Linux.
        .globl _start
_start: lui     s0, TABLE
        li      t0, 0
        li      t1, TURNS
1:      andi    t3, t0, 255
        slli    t3, t3, 2
        add     t4, s0, t3
        lw      t5, 0(t4)
        add     t5, t5, t0
        sw      t5, 0(t4)
        lbu     t6, 1(t4)
        sb      t6, 3(t4)
        addi    t0, t0, 1
        bltu    t0, t1, 1b
        lw      a0, 4(s0)
        andi    a0, a0, 127
        li      a7, EXIT
        ecall

        .bss
        .space  4096
