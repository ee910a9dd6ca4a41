# A timer that interrupts the image again and again, on qemu's core: the counter of instructions asks for interrupt 13 when it overflows (the
# extension Sscofpmf). After each interrupt it is set so that the image gets another number of instructions, 1 to 64 (fewer if `ecall`s, which count
# too, are among them): so interrupts come at each of its instructions. A board has another timer; its handler does the same with the image. This
# handler is as bad as one may be: it changes every register that a function may change. When the image ends, the number of interrupts goes out as one
# more word. team.sh links this with `--wrap=end_with`.

        .globl  start_interrupts, interrupt, __wrap_end_with

        .equ    mhpmevent3h, 0x723      # its bit 31: the counter has overflowed
        .equ    overflow, 1 << 13       # of mie and mip
        .equ    after, 38               # so many instructions follow until the image goes on

start_interrupts:
        li      t0, 2                   # qemu's number for instructions
        csrw    mhpmevent3, t0
        li      t0, overflow
        csrw    mie, t0
        j       again

interrupt:
        la      t0, taken
        lw      t1, 0(t0)
        addi    t1, t1, 1
        sw      t1, 0(t0)
again:  lw      t0, taken
        li      t1, 0x9e3779b1          # so that the numbers are scattered
        mul     t0, t0, t1
        srli    t0, t0, 26
        addi    t0, t0, after + 1
        neg     t0, t0
        li      t1, -1
        csrw    mhpmevent3h, zero
        csrw    mhpmcounter3h, t1
        csrw    mhpmcounter3, t0
        li      t0, overflow
        csrc    mip, t0
        li      t0, 0x55555555
        mv      t1, t0
        mv      t2, t0
        mv      a0, t0
        mv      a1, t0
        mv      a2, t0
        mv      a3, t0
        mv      a4, t0
        mv      a5, t0
        mv      a6, t0
        mv      a7, t0
        mv      t3, t0
        mv      t4, t0
        mv      t5, t0
        mv      t6, t0
        ret

__wrap_end_with:
        addi    sp, sp, -16
        sw      a0, 12(sp)
        lw      a0, taken
        call    write_word
        lw      a0, 12(sp)
        addi    sp, sp, 16
        j       __real_end_with

        .data
        .balign 4
taken:  .word   0
