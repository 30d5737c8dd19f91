# A linker optimization hint of each kind.
.text
.globl _hinted
.p2align 2
_hinted:
L0:
    adrp x0, _undefined@PAGE
L1:
    adrp x0, _undefined@PAGE
L2:
    add x0, x0, _undefined@PAGEOFF
.loh AdrpAdrp L0, L1
.loh AdrpLdr L0, L1
.loh AdrpAddLdr L0, L1, L2
.loh AdrpLdrGotLdr L0, L1, L2
.loh AdrpAddStr L0, L1, L2
.loh AdrpLdrGotStr L0, L1, L2
.loh AdrpAdd L0, L1
.loh AdrpLdrGot L0, L1
