# Every form of relocation record that the x86_64 reader takes.

.text
.globl _code
_code:
    # displacements to a symbol, with 0, 1, 2 and 4 bytes of the instruction behind them
    leaq _data + 3(%rip), %rax
    movb $5, _data(%rip)
    movw $5, _undefined(%rip)
    movl $5, _undefined(%rip)
    # LLVM takes the type from the addend, not from the instruction
    movl $5, _data + 2(%rip)
    movb $5, _data - 0x1000(%rip)
    # the same to a place behind no symbol: by its section
    leaq Lplace(%rip), %rax
    movb $5, Lplace(%rip)
    movw $5, Lplace + 0x30(%rip)
    movl $5, Lplace(%rip)
    movl $5, Lplace + 2(%rip)
    # calls and jumps, short ones, too
    callq _undefined
    callq Lcold
    jrcxz _undefined
    loop _undefined - 3
    # GOT slots and a thread-local variable
    movq _undefined@GOTPCREL(%rip), %rax
    pushq _undefined@GOTPCREL(%rip)
    cmpq $5, _undefined@GOTPCREL(%rip)
    movq _variable@TLVP(%rip), %rdi
    ret

# Code whose own address is not 0, with no symbol in it.
.section __TEXT,__cold,regular,pure_instructions
    nop
Lcold:
    leaq Lplace + 0x40(%rip), %rax
    movb $5, Lplace - 0x2000(%rip)
    movw $5, Lplace(%rip)
    movl $5, Lplace(%rip)
    callq Lcold2
    jmp _code

.section __TEXT,__cold2,regular,pure_instructions
Lcold2:
    callq Lcold
    jrcxz _undefined

.section __DATA,__plain
    .quad 1
Lplace:
    .quad 2

.data
_data:
    # pointers
    .quad _data - 1
    .long _data + 0x7fffffff
    .quad Lplace + 5
    .long Lplace - 5
    .quad _undefined + 0x7fffffffffffffff
    # differences
    .quad _data - _code + 9
    .long _code - _data - 9
    # the distance to a GOT slot
    .long _undefined@GOTPCREL + 4
