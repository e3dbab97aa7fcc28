# Where a program begins (docs/DECISIONS.md, own-start-file), as in glibc's own start file, except that it calls the oldest
# version of __libc_start_main. A newer glibc still has that version, so the program runs on old and new systems.
        .symver __libc_start_main, __libc_start_main@GLIBC_2.2.5
        .text
        .globl  _start
        .type   _start, @function
_start:
        endbr64
        xorl    %ebp, %ebp
        movq    %rdx, %r9               # what the loader has to run at the end
        popq    %rsi                    # argc
        movq    %rsp, %rdx              # argv
        andq    $-16, %rsp
        pushq   %rax
        pushq   %rsp                    # the end of the stack
        xorl    %r8d, %r8d              # no fini
        leaq    init(%rip), %rcx
        movq    main@GOTPCREL(%rip), %rdi
        call    *__libc_start_main@GOTPCREL(%rip)
        hlt
        .size   _start, .-_start

# Runs the constructors with argc, argv and the environment: the kit's keeps the arguments. __libc_start_main calls this once.
        .type   init, @function
init:
        endbr64
        pushq   %rbp
        pushq   %rbx
        pushq   %r12
        pushq   %r13
        pushq   %r14
        movl    %edi, %ebp
        movq    %rsi, %r12
        movq    %rdx, %r13
        leaq    __init_array_start(%rip), %rbx
        leaq    __init_array_end(%rip), %r14
1:      cmpq    %r14, %rbx
        jae     2f
        movl    %ebp, %edi
        movq    %r12, %rsi
        movq    %r13, %rdx
        call    *(%rbx)
        addq    $8, %rbx
        jmp     1b
2:      popq    %r14
        popq    %r13
        popq    %r12
        popq    %rbx
        popq    %rbp
        ret
        .size   init, .-init

# The kit's `main` first asks glibc what the processor has, by a call that glibc has only since 2.33. This answers instead, as
# far as `main` reads it: for the index 0 what CPUID says in ECX for leaf 1, and for any other index for leaf 0x80000001.
        .globl  __x86_get_cpuid_feature_leaf
        .hidden __x86_get_cpuid_feature_leaf
        .type   __x86_get_cpuid_feature_leaf, @function
__x86_get_cpuid_feature_leaf:
        endbr64
        pushq   %rbx
        movl    $1, %eax
        testl   %edi, %edi
        jz      1f
        movl    $0x80000001, %eax
1:      xorl    %ecx, %ecx
        cpuid
        leaq    features(%rip), %rax
        movl    %ecx, 24(%rax)          # the third register of those that are active
        popq    %rbx
        ret
        .size   __x86_get_cpuid_feature_leaf, .-__x86_get_cpuid_feature_leaf

        .local  features
        .comm   features, 32, 8
        .section .note.GNU-stack, "", @progbits
