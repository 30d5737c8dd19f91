/* Differences of addresses and offsets to GOT slots, which C has no words for. */

/* The offset from here to the GOT slot of a symbol, as the assembler of each machine has it. */
#ifdef __aarch64__
#define SLOT(symbol) "  .long " symbol "@GOT - .\n"
#else
#define SLOT(symbol) "  .long " symbol "@GOTPCREL + 4\n"
#endif

extern int outside;
int low = 1, high = 2;
extern const long spans[];
extern const int offsets[];
static int cold(int a) { return a - 1; }
static int hot(int a) { return a + 1; }
int (*const kept[2])(int) = {cold, hot};

__asm__(".section __DATA,__spans\n"
        ".p2align 3\n"
        ".globl _spans\n"
        "_spans:\n"
        "  .quad _high - _low\n"
        "  .quad _low - _high - 16\n"
        "  .quad _high - _spans + 8\n"
        ".globl _offsets\n"
        "_offsets:\n"
        "  .long _cold - _offsets\n"
        "  .long _hot - _offsets + 4\n"
        SLOT("_outside")
        SLOT("_low")
        "  .p2align 3\n"
        "  .quad _low\n"
        "  .quad _high + 24\n");

int call(unsigned which, int value) {
    int (*to)(int) = (int (*)(int))((const char *)offsets + offsets[which & 1]);
    return to(value) + outside;
}

long span(unsigned which) {
    return spans[which & 1];
}
