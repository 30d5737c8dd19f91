/* Thread-local variables: with a value, without one, static, another image's. */

_Thread_local int depth = 3;
_Thread_local long sum;
static _Thread_local double last[4] = {1.0, 2.0, 3.0, 4.0};
static _Thread_local char buffer[32];
extern _Thread_local int errors;

int enter(void) {
    return ++depth;
}

void add(long value) {
    sum += value;
}

double *slot(unsigned channel) {
    return &last[channel & 3];
}

char *scratch(void) {
    return buffer;
}

int failed(void) {
    errors++;
    return errors;
}

int *depth_place(void) {
    return &depth;
}
