// Authenticated pointers for arm64e: each key with and without address diversity, addends of either sign, diversities of
// either end, to functions, to data and to another image's symbol.
    .section __TEXT,__text
    .p2align 2
_first:
    ret
    .globl _second
_second:
    ret

    .section __DATA,__const
    .p2align 3
    .quad _first@AUTH(ia,0)
    .quad _first@AUTH(ia,42,addr)
    .quad _second@AUTH(ib,65535)
    .quad (_second+4)@AUTH(ib,1,addr)
    .quad _table@AUTH(da,0)
    .quad (_table-3)@AUTH(da,65535,addr)
    .quad (_table+7)@AUTH(db,0)
    .quad (_table+0x4000)@AUTH(db,32768,addr)
    .quad _imported@AUTH(ia,0)
    .quad (_imported-0x80000000)@AUTH(db,65535,addr)
    // beside pointers that are not authenticated, and differences
    .quad _table
    .quad _second - _first
    .quad _second - _table + 8

    .section __DATA,__data
    .globl _table
    .p2align 3
_table:
    .quad _table@AUTH(da,7,addr)
    .quad (_second-4)@AUTH(ia,55743)
    .quad 0
    // at no multiple of 8
    .long 0
    .quad (_table+0x7fff0000)@AUTH(db,3)
