# The five functions for the start in start.s, on a core that qemu simulates: words go out as four bytes each, the lowest first, by
# semihosting; the input is what the linker puts at `input`, a count and that many words; the stack begins at `stack_from`, an address given to the
# linker; there are no interrupts, unless another file has functions for them (ticks.s). A board has its own in place of this file.

        .globl  write_word, read_word, end_with, backed
        .weak   start_interrupts, interrupt

# Where this core begins: it takes the stack from 0x00600000 to `stack_from` away, so a load or store there traps, and goes on with the start. A
# region of physical memory protection without rights, which is locked, so it holds for machine mode.
backed: li      t0, 0x00600000 >> 2
        csrw    pmpaddr0, t0
        lui     t0, %hi(stack_from)
        addi    t0, t0, %lo(stack_from)
        srli    t0, t0, 2
        csrw    pmpaddr1, t0
        li      t0, 0x8800              # the second: locked, from the first one's address up to its own
        csrw    pmpcfg0, t0
        j       _start

# semihosting: the call's number in x10, its argument in x11. The three instructions must be in one page and uncompressed.
        .balign 16
host:   slli    zero, zero, 0x1f
        ebreak
        srai    zero, zero, 7
        ret

write_word:
        la      a1, out
        sw      a0, 0(a1)
        sw      ra, 4(a1)
        li      a2, 4
1:      li      a0, 3                   # SYS_WRITEC: one byte
        call    host
        addi    a1, a1, 1
        addi    a2, a2, -1
        bnez    a2, 1b
        la      a1, out
        lw      ra, 4(a1)
        ret

read_word:
        la      a1, input
        lw      t0, 0(a1)               # words left
        li      a0, 0
        beqz    t0, 1f
        addi    t0, t0, -1
        sw      t0, 0(a1)
        la      a2, place
        lw      t1, 0(a2)
        addi    t0, t1, 4
        sw      t0, 0(a2)
        add     t1, t1, a1
        lw      a0, 4(t1)
1:      ret

end_with:
        la      a1, exit
        sw      a0, 4(a1)
        li      a0, 0x20                # SYS_EXIT_EXTENDED: the status is the word's lowest byte
        call    host
1:      j       1b

start_interrupts:
        csrw    mie, zero
        ret

interrupt:                              # none was allowed to come
        li      a0, -1
        j       end_with

        .data
        .balign 4
out:    .word   0, 0
place:  .word   0
exit:   .word   0x20026, 0
