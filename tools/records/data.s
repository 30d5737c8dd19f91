# Pointers and differences of every size, by symbol and by section. For both machines.
.text
.globl _function
_function:
    ret
_second:
    ret
Linner:
    ret

.data
_data:
    .quad _undefined
    .long _undefined
    .short _undefined
    .byte _undefined
    .quad _second - _data
    .long _second - _data
    .short _second - _data
    .byte _second - _data
    .quad _data + 0x123456789
    .quad Lstring

.section __TEXT,__cstring,cstring_literals
Lstring:
    .asciz "coefficient"

# Local labels of other sections, from a debug section: named by the section's ordinal.
.section __DWARF,__debug_info,regular,debug
    .quad Linner
    .quad Lstring
    .long Linner
