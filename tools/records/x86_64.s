# Each instruction and pointer form that has a relocation type of x86-64.
.text
.globl _code
_code:
    callq _undefined
    jmp _code
    movq _undefined@GOTPCREL(%rip), %rax
    pushq _undefined@GOTPCREL(%rip)
    movl _undefined(%rip), %eax
    movb $1, _undefined(%rip)
    movw $1, _undefined(%rip)
    movl $1, _undefined(%rip)
    movq _variable@TLVP(%rip), %rdi
    leaq Lstring(%rip), %rax
    movb $1, Lstring + 4(%rip)
    ret

.data
_pointers:
    .long _undefined@GOTPCREL + 4

.section __TEXT,__cstring,cstring_literals
Lstring:
    .asciz "coefficient"
