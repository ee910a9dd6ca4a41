# A device that answers: each word that an image writes is a request, and its next read gets the answer to that request. Here it is a heater of so
# many percent and a thermometer a second later (plant.c). Without a request there is no answer: an image that reads ahead of its source waits here
# for ever. team.sh links this with `--wrap`, so that the start in start.s gets here first; the word then goes out as in qemu.s.

        .globl  __wrap_write_word, __wrap_read_word

__wrap_write_word:                      # x10 has the word
        la      a1, tenths
        lw      t0, 0(a1)
        slli    t1, a0, 2               # four tenths of a degree for each percent, above 20.0
        sub     t1, t1, t0
        addi    t1, t1, 200
        srai    t1, t1, 3               # an eighth of the difference in a second
        add     t0, t0, t1
        sw      t0, 0(a1)
        li      t0, 1
        sw      t0, 4(a1)
        j       __real_write_word

__wrap_read_word:                       # gives the word in x10
        la      a1, tenths
1:      lw      t0, 4(a1)
        beqz    t0, 1b
        sw      zero, 4(a1)
        lw      a0, 0(a1)
        ret

        .data
        .balign 4
tenths: .word   200, 0                  # the temperature, and whether a request waits for its answer
