/* Globals of every size, loaded and stored: static, exported, hidden, weak, common. */

static volatile signed char level8 = 1;
static volatile unsigned char mask8 = 2;
static volatile short level16 = 3;
static volatile unsigned short mask16 = 4;
static volatile int level32 = 5;
static volatile unsigned mask32 = 6;
static volatile long level64 = 7;
static volatile float gain32 = 8.0f;
static volatile double gain64 = 9.0;
volatile __int128 wide = 10;

int readings;
long energy;
double limit = 1372.0;
__attribute__((visibility("hidden"))) int hidden_count = 3;
__attribute__((weak)) int weak_count = 4;
__attribute__((weak)) double weak_gain = 1.5;

long narrow(void) {
    return level8 + mask8 + level16 + mask16;
}

long words(void) {
    return (long)level32 + (long)mask32 + level64;
}

double scaled(void) {
    return gain32 * gain64;
}

void set(long value) {
    level8 = (signed char)value;
    mask16 = (unsigned short)value;
    level32 = (int)value;
    level64 = value;
    gain32 = (float)value;
    gain64 = (double)value;
}

__int128 widest(void) {
    return wide;
}

int next_reading(void) {
    readings++;
    energy += hidden_count;
    return readings;
}

double over(double value) {
    weak_count++;
    return value > limit ? value - limit : weak_gain;
}

int *where(void) {
    return &hidden_count;
}

int *where_weak(void) {
    return &weak_count;
}
