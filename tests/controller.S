# on_stack(top, call, arguments): makes a call with seven arguments on the stack below `top` and gives its answer. The
# seventh argument stands at `top`, so that the first byte below is of the return address.
        .text
        .globl  on_stack
on_stack:
        push    %rbx
        mov     %rsp, %rbx
        mov     %rdi, %rsp
        mov     %rsi, %rax
        mov     %rdx, %r10
        mov     48(%r10), %r11
        mov     %r11, (%rsp)
        mov     40(%r10), %r9
        mov     32(%r10), %r8
        mov     24(%r10), %rcx
        mov     16(%r10), %rdx
        mov     8(%r10), %rsi
        mov     (%r10), %rdi
        call    *%rax
        mov     %rbx, %rsp
        pop     %rbx
        ret

# All that the library asks for, with no stack but the return address.
        .globl  memcpy
memcpy:
        mov     %rdi, %rax
        mov     %rdx, %rcx
        rep movsb
        ret

        .globl  memset
memset:
        mov     %rdi, %r8
        mov     %esi, %eax
        mov     %rdx, %rcx
        rep stosb
        mov     %r8, %rax
        ret

        .section .note.GNU-stack, "", @progbits
