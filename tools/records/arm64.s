# Each instruction and pointer form that has a relocation type of arm64.
.text
.globl _code
.p2align 2
_code:
    bl _undefined
    b _undefined + 8
    adrp x0, _undefined@PAGE
    add x0, x0, _undefined@PAGEOFF
    adrp x1, _undefined@PAGE + 0x7fffff
    ldr x1, [x1, _undefined@PAGEOFF + 8]
    adrp x2, _undefined@PAGE + 0x123456
    ldrb w2, [x2, _undefined@PAGEOFF + 0x654321]
    adrp x3, _undefined@GOTPAGE
    ldr x3, [x3, _undefined@GOTPAGEOFF]
    adrp x4, _variable@TLVPPAGE
    ldr x4, [x4, _variable@TLVPPAGEOFF]
    ret

.data
_pointers:
    .quad _undefined@GOT
    .long _undefined@GOT - .
