# Linker optimization hints with addresses of one, two and three bytes each. The last address is not 0: zeros after it are padding.
.text
.globl _hinted
.p2align 2
_hinted:
L0:
    adrp x0, _undefined@PAGE
L1:
    add x0, x0, _undefined@PAGEOFF
.space 400
L2:
    adrp x1, _undefined@GOTPAGE
L3:
    ldr x1, [x1, _undefined@GOTPAGEOFF]
L4:
    ldr x1, [x1]
.space 20000
L5:
    adrp x2, _undefined@PAGE
L6:
    ldr x2, [x2, _undefined@PAGEOFF]
.loh AdrpAdd L0, L1
.loh AdrpLdrGotLdr L2, L3, L4
.loh AdrpLdr L5, L6
.loh AdrpAdrp L0, L5
