/* Calls: within the text, to a far section, to other images; and DTrace sites. */

extern void outside(int);
extern int __dtrace_isenabled$thermo$reading$v1(void);
extern void __dtrace_probe$thermo$reading$v1$696e74(int);

__attribute__((noinline, section("__FAR,__far_text"))) int far_away(int a) {
    outside(a);
    return a * 7;
}

__attribute__((noinline)) int near_by(int a) {
    return a * 5 + 1;
}

int both(int a) {
    return near_by(a) + far_away(a + 1);
}

__attribute__((section("__FAR,__far_text"))) int and_back(int a) {
    return both(a) - near_by(a);
}

void trace(int reading) {
    if (__dtrace_isenabled$thermo$reading$v1())
        __dtrace_probe$thermo$reading$v1$696e74(reading);
    outside(reading);
}

int tail(int a) {
    return far_away(a);
}
