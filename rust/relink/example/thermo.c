/* Readings of thermocouples: the example that ./relink shows. `make`, beside it, compiles it. */

typedef double pair __attribute__((vector_size(16)));

/* As it comes off the wire: its fields may stand at any address. */
struct __attribute__((packed)) frame {
    unsigned raw;
    unsigned channel;
};

extern int alarms;                  /* another image's: by the GOT */
extern void ring(unsigned channel);

int total;                          /* common: the linker finds room for it */
int low = -40, high = 1200;
static int count;
double ice = 273.15;
__attribute__((section("__DATA,__wire"))) struct frame newest = {0, 1};
const double type_k[4] = {0.0, 24.7, 49.3, 73.9};
const char *const kinds[2] = {"type K", "type J"};
_Thread_local int depth = 1;

pair scaled(pair volts) {
    return volts * (pair){24.39, 19.23};
}

double kelvin(unsigned step) {
    return type_k[step & 3] + ice;
}

int span(void) {
    count++;
    return high - low;
}

unsigned raw(void) {
    return newest.raw;
}

void take(unsigned bits) {
    newest.raw = bits;
}

void check(int reading) {
    depth++;
    if (reading > high) {
        alarms++;
        ring(newest.channel);
    }
}

int all(void) {
    return total + count;
}

void clear(void) {
    alarms = 0;
}
