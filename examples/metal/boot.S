/* From power-on to C, on each CPU, and from an interrupt to C.

   qemu's -kernel finds the note in section .note.Xen, and starts the first CPU at `start`, in 32-bit mode without paging (PVH). The
   other CPUs start in 16-bit mode at `ap_start`, which machine.c copies to 0x8000. All CPUs reach `to_long`, which enables paging,
   assigns the CPU its number and its stack, and jumps to cpu_main(number) of main.c. */

#define STACK 65536

    .section .note.Xen, "a", @note
    .balign 4
    .long 4, 8, 18          /* the sizes of name and description; type 18 is the entry point */
    .asciz "Xen"
    .quad start

    .section .boot, "awx"
    .code32
    .globl start
start:
    cli
    cld
    /* Maps the first 4 GiB by pages of 2 MiB, each present and writable. */
    mov $pd, %edi
    mov $0x83, %eax
    mov $2048, %ecx
1:  mov %eax, (%edi)
    movl $0, 4(%edi)
    add $8, %edi
    add $0x200000, %eax
    dec %ecx
    jnz 1b
    orl $0x18, pd + (0xfee00000 >> 21) * 8      /* the local APIC's page is uncached */
    lgdt gdtr
    ljmp $0x08, $to_long

    .code16
    .globl ap_start, ap_end
ap_start:
    cli
    xor %ax, %ax
    mov %ax, %ds
    lgdtl 0x8000 + ap_gdtr - ap_start
    mov %cr0, %eax
    or $1, %eax
    mov %eax, %cr0
    ljmpl $0x08, $to_long
    .balign 4
ap_gdtr:
    .word gdt_end - gdt - 1
    .long gdt
ap_end:

    .code32
to_long:
    mov $0x10, %eax
    mov %eax, %ds
    mov %eax, %es
    mov %eax, %ss
    mov $pml4, %eax
    mov %eax, %cr3
    mov %cr4, %eax
#ifdef NO_SSE
    or $(1 << 5), %eax                          /* PAE */
#else
    or $(1 << 5 | 1 << 9 | 1 << 10), %eax       /* PAE; OSFXSR and OSXMMEXCPT for SSE */
#endif
    mov %eax, %cr4
    mov $0xc0000080, %ecx
    rdmsr
    or $0x100, %eax                             /* EFER.LME: long mode */
    wrmsr
    mov %cr0, %eax
    and $~(1 << 2 | 1 << 3), %eax               /* clears EM and TS */
#ifdef NO_SSE
    or $(1 << 2), %eax                          /* EM: every SSE instruction raises an exception */
#endif
    or $(1 << 31 | 1 << 16 | 1 << 5 | 1 << 1 | 1), %eax
    mov %eax, %cr0
    ljmp $0x18, $long_mode

    .code64
long_mode:
    mov $1, %edi
    lock xadd %edi, cpus_up                     /* the boot CPU is 0 */
    cmp $CPUS, %edi
    jae 2f
    lea 1(%rdi), %rax
    imul $STACK, %rax
    movabs $stacks, %rsp
    add %rax, %rsp
    xor %ebp, %ebp
    push %rbp
    movabs $cpu_main, %rax
    jmp *%rax
2:  cli
    hlt
    jmp 2b

    .balign 8
    .globl cpus_up
cpus_up:
    .long 0
    .balign 8
gdt:
    .quad 0, 0x00cf9b000000ffff, 0x00cf93000000ffff, 0x00af9b000000ffff
gdt_end:
gdtr:
    .word gdt_end - gdt - 1
    .long gdt
    .balign 4096
pml4:
    .quad pdpt_low + 3
    .fill 510, 8, 0
    .quad pdpt_high + 3
pdpt_low:
    .quad pd + 3, pd + 0x1003, pd + 0x2003, pd + 0x3003
    .fill 508, 8, 0
pdpt_high:
    .fill 510, 8, 0
    .quad pd + 3, 0
pd:
    .fill 2048, 8, 0

    .section .bss
    .balign 16
    .globl stacks
stacks:
    .space CPUS * STACK

/* Each vector's entry pushes an error code, unless the CPU has pushed one, and then the vector. */
    .section .text
    .globl vectors
vectors:
    .set vector, 0
    .rept 256
    .balign 16
    .if !(vector == 8 || (vector >= 10 && vector <= 14) || vector == 17 || vector == 21 || vector == 29 || vector == 30)
    push $0
    .endif
    push $vector
    jmp interrupted
    .set vector, vector + 1
    .endr

/* Saves all registers, calls interrupt(), and restores them. The SSE registers are saved too: the handler calls the library, which
   uses them unless it was built by tools/develop/kernel_library. */
interrupted:
    push %rax
    push %rcx
    push %rdx
    push %rsi
    push %rdi
    push %r8
    push %r9
    push %r10
    push %r11
    push %rbx
    push %rbp
    mov %rsp, %rbp
    and $-16, %rsp
#ifndef NO_SSE
    sub $512, %rsp
    fxsave64 (%rsp)
#endif
    cld
    mov %rbp, %rdi
    call interrupt
#ifndef NO_SSE
    fxrstor64 (%rsp)
#endif
    mov %rbp, %rsp
    pop %rbp
    pop %rbx
    pop %r11
    pop %r10
    pop %r9
    pop %r8
    pop %rdi
    pop %rsi
    pop %rdx
    pop %rcx
    pop %rax
    add $16, %rsp
    iretq

    .section .note.GNU-stack, "", @progbits
