# In LLVM's syntax: an instruction or a pointer for each form of record that the x86_64 reader takes.
.text
_code:
    callq _foo
    callq _foo+4
    movq _foo@GOTPCREL(%rip), %rax
    pushq _foo@GOTPCREL(%rip)
    movl _foo(%rip), %eax
    movl _foo+4(%rip), %eax
    movb $0x12, _foo(%rip)
    movw $0x1234, _foo(%rip)
    movl $0x12345678, _foo(%rip)
    movq _foo@TLVP(%rip), %rdi

# a section that is not at address 0, and has no symbol
.section __TEXT,__far,regular,pure_instructions
L1:
    leaq L0(%rip), %rax
    movb $0x12, L0(%rip)
    movw $0x1234, L0(%rip)
    movl $0x12345678, L0(%rip)
    movl $0x12345678, L0+2(%rip)
    callq _code
    callq L2
    loop _foo-3

.section __TEXT,__farther,regular,pure_instructions
L2:
    ret

.section __DATA,__table
    .quad _foo
    .quad _foo+4
    .quad _code - _bar
    .quad _code - _bar + 4
    .long _code - _bar
    .long _foo-1
    .quad L0
    .quad L1+1
    .long L0-1

.section __DATA,__plain
    .quad 1
L0:
    .quad 2

.data
_bar:
    .quad 3
