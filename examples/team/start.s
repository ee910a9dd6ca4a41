# What a core does before the first word of an image of cclib, at each of its `ecall`s, and at each interrupt.
#
# The image is at its two places already: the code at 0x00010000, the globals that it starts with at 0x00200000 (cclib image says both). `globals_end`
# is the address after these, given to the linker. Everything here is position independent but for that; team.sh links it to 0x00001000.
#
# Registers: x2 is 0x00800000 at the image's first word. All others may hold anything: no image depends on them
# (docs/MACHINE.md, "On a board", says what is proved of that).
#
# Five functions are yours (for qemu: qemu.s), in assembly or in C: each keeps x2 to x4, x8, x9 and x18 to x27, as every function of RISC-V does.
# x3 and x4 have the image's words: C is compiled without relaxation (ld --no-relax).
#
#     write_word          gets the word in x10
#     read_word           gives the next word of the input in x10, 0 if none is left
#     end_with            gets the word in x10, and does not come back
#     start_interrupts    sets `mie`, and starts what interrupts; without interrupts it sets `mie` to 0
#     interrupt           gets `mcause` in x10; it ends what asked for the interrupt

        .globl  _start
_start: la      t0, service             # where an ecall and an interrupt go
        csrw    mtvec, t0
        lui     t0, %hi(globals_end)    # the globals after those of the image are 0
        addi    t0, t0, %lo(globals_end)
        li      t1, 0x00240000
1:      bgeu    t0, t1, 2f
        sw      zero, 0(t0)
        addi    t0, t0, 4
        j       1b
2:      la      sp, stack_end
        call    start_interrupts
        li      sp, 0x00800000          # the stack is 0x00600000 to 0x007fffff
        li      t0, 0x00010000
        csrsi   mstatus, 8              # from here on interrupts may come
        jr      t0

# At an ecall x17 has the number of the service: 1 writes the word in x10, 2 puts the next word of the input into x10, 93 ends with the word in x10.
# All other registers are afterwards as they were before. After an interrupt all are, x10 too, and the image goes on at the instruction that was
# interrupted. A core that gets here for another reason than an ecall from machine mode (11) or an interrupt has met what cclib's simulator calls
# a trap. While this runs, no interrupt comes: it waits until `mret`.
        .balign 4
service:
        csrw    mscratch, sp            # the image's stack is its own: this program has another
        la      sp, stack_end
        addi    sp, sp, -64
        sw      ra, 0(sp)               # what a function may change
        sw      t0, 4(sp)
        sw      t1, 8(sp)
        sw      t2, 12(sp)
        sw      a0, 16(sp)
        sw      a1, 20(sp)
        sw      a2, 24(sp)
        sw      a3, 28(sp)
        sw      a4, 32(sp)
        sw      a5, 36(sp)
        sw      a6, 40(sp)
        sw      a7, 44(sp)
        sw      t3, 48(sp)
        sw      t4, 52(sp)
        sw      t5, 56(sp)
        sw      t6, 60(sp)
        csrr    t0, mcause
        bltz    t0, interrupted
        li      t1, 11
        bne     t0, t1, trapped
        li      t0, 1
        beq     a7, t0, 1f
        li      t0, 2
        beq     a7, t0, 2f
        li      t0, 93
        bne     a7, t0, trapped
        call    end_with
1:      call    write_word
        j       3f
2:      call    read_word
        sw      a0, 16(sp)
3:      csrr    t0, mepc                # after an ecall: the next instruction
        addi    t0, t0, 4
        csrw    mepc, t0
back:   lw      ra, 0(sp)
        lw      t0, 4(sp)
        lw      t1, 8(sp)
        lw      t2, 12(sp)
        lw      a0, 16(sp)
        lw      a1, 20(sp)
        lw      a2, 24(sp)
        lw      a3, 28(sp)
        lw      a4, 32(sp)
        lw      a5, 36(sp)
        lw      a6, 40(sp)
        lw      a7, 44(sp)
        lw      t3, 48(sp)
        lw      t4, 52(sp)
        lw      t5, 56(sp)
        lw      t6, 60(sp)
        csrr    sp, mscratch
        mret
interrupted:
        mv      a0, t0
        call    interrupt
        j       back
trapped:
        li      a0, -1
        call    end_with

        .bss
        .balign 16
        .skip   1024                    # as much as these functions need, and 64 bytes
stack_end:
