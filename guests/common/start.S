# The two permitted entries of every guest: where a hart starts, and where traps go.

        .section .text.start, "ax"
        .option norelax
        .globl  _start
# At 0x80000000: hart a0 starts (hart 0 at boot, the others by a call, with a1 of the call's choice).
# Each hart has a page of stack: the upper half for its code, the lower half for its traps.
_start: la      sp, stacks
        addi    t0, a0, 1
        slli    t0, t0, 12
        add     sp, sp, t0
        li      t0, -2048
        add     t0, sp, t0
        csrw    sscratch, t0
        la      t0, trap_vector
        csrw    stvec, t0
        bnez    a0, 1f
        call    main
        li      a7, 8                   # shut down
        ecall
1:      call    hart_main
        li      a7, 0x48534D            # this hart stops
        li      a6, 1
        ecall

# At 0x80000100: every trap. sscratch holds the hart's trap stack, so that no register of the trapped code is relied on.
        .org    0x100
        .globl  trap_vector
trap_vector:
        csrrw   sp, sscratch, sp
        addi    sp, sp, -256
        sd      x1, 8(sp)
        .irp    n, 3,4,5,6,7,8,9,10,11,12,13,14,15,16,17,18,19,20,21,22,23,24,25,26,27,28,29,30,31
        sd      x\n, 8*\n(sp)
        .endr
        csrr    t0, sscratch
        sd      t0, 16(sp)              # the trapped code's sp
        addi    t0, sp, 256
        csrw    sscratch, t0
        csrr    t0, sepc
        sd      t0, 0(sp)
        mv      a0, sp
        csrr    a1, scause
        csrr    a2, stval
        call    trap
        ld      t0, 0(sp)
        csrw    sepc, t0
        ld      x1, 8(sp)
        .irp    n, 3,4,5,6,7,8,9,10,11,12,13,14,15,16,17,18,19,20,21,22,23,24,25,26,27,28,29,30,31
        ld      x\n, 8*\n(sp)
        .endr
        ld      sp, 16(sp)
        sret

# enter_user(pc, sp): leaves the kernel for good; the user comes back by traps.
        .globl  enter_user
enter_user:
        csrw    sepc, a0
        mv      sp, a1
        li      t0, 0x100               # SPP: user
        csrc    sstatus, t0
        sret

        .section .bss
        .balign 4096
stacks: .skip   4 * 4096
