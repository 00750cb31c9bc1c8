# The compiler clears what a function keeps on the stack, and calls memset where that is more than 256 bytes. The archive is to need nothing
# from outside, so each of its files gets this one, under a name that is the file's own.
    .section .text.memset, "ax", @progbits
    .globl memset
    .type memset, @function
memset:
    movq %rdi, %r8
    movl %esi, %eax
    movq %rdx, %rcx
    rep stosb
    movq %r8, %rax
    ret
    .size memset, .-memset
    .section .note.GNU-stack, "", @progbits
