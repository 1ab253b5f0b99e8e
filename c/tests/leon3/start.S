! A LEON3 without an operating system: the trap table, of which only the windows of registers are served, and the start,
! which gives the program a stack below the end of 128 MiB of memory and calls begin() of bare.c.
#define BAD ta 0; nop; nop; nop
    .section .text.start, "ax"
    .align 4096
table:
    .rept 5
    BAD
    .endr
    ba window_overflow; nop; nop; nop
    ba window_underflow; nop; nop; nop
    .rept 249
    BAD
    .endr
    .global _start
_start:
    set table, %g1
    wr %g1, 0, %tbr
    wr %g0, 2, %wim
    set 0x0fc0, %g2
    wr %g2, 0, %psr
    nop
    nop
    nop
    set 0x47fff000, %sp
    mov 0, %fp
    set 0x0fe0, %g2
    wr %g2, 0, %psr
    nop
    nop
    nop
    call begin
    nop
1:  ba 1b
    nop
window_overflow:
    mov %wim, %l3
    mov %g1, %l7
    srl %l3, 1, %g1
    sll %l3, 7, %l4
    or %l4, %g1, %g1
    save
    mov %g1, %wim
    nop
    nop
    nop
    std %l0, [%sp+0]
    std %l2, [%sp+8]
    std %l4, [%sp+16]
    std %l6, [%sp+24]
    std %i0, [%sp+32]
    std %i2, [%sp+40]
    std %i4, [%sp+48]
    std %i6, [%sp+56]
    restore
    mov %l7, %g1
    jmp %l1
    rett %l2
window_underflow:
    mov %wim, %l3
    sll %l3, 1, %l4
    srl %l3, 7, %l5
    or %l5, %l4, %l5
    mov %l5, %wim
    nop
    nop
    nop
    restore
    restore
    ldd [%sp+0], %l0
    ldd [%sp+8], %l2
    ldd [%sp+16], %l4
    ldd [%sp+24], %l6
    ldd [%sp+32], %i0
    ldd [%sp+40], %i2
    ldd [%sp+48], %i4
    ldd [%sp+56], %i6
    save
    save
    jmp %l1
    rett %l2
