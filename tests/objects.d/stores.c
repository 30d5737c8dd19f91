/* Loads and stores through an address made first: fields that may stand anywhere. */

struct __attribute__((packed)) frame {
    unsigned char tag;
    unsigned short code;
    unsigned raw;
    unsigned long stamp;
    double value;
};
struct __attribute__((packed)) reading {
    unsigned raw;
    double value;
};

typedef unsigned long anywhere __attribute__((aligned(1)));
typedef short half_anywhere __attribute__((aligned(1)));

/* Sections of alignment 1. The first ones come to even places, the last one does not. */
__attribute__((section("__DATA,__wire"))) struct reading reading = {1, 2.0};
__attribute__((section("__DATA,__wire2"))) struct reading readings[5];
__attribute__((section("__DATA,__wire3"))) char bytes[64];
__attribute__((section("__DATA,__wire4"))) struct frame frame = {1, 2, 3, 4, 5.0};
static int history[1024];

unsigned frame_code(void) { return frame.code; }
unsigned frame_raw(void) { return frame.raw; }
unsigned long frame_stamp(void) { return frame.stamp; }
double frame_value(void) { return frame.value; }
unsigned reading_raw(void) { return reading.raw; }
long reading_signed(void) { return (int)reading.raw; }
double reading_value(void) { return reading.value; }
unsigned later_raw(void) { return readings[3].raw; }
unsigned long any(void) { return *(anywhere *)&bytes[8]; }
int any_half(void) { return *(half_anywhere *)&bytes[9]; }

void set_code(unsigned short v) { frame.code = v; }
void set_raw(unsigned v) { frame.raw = v; }
void set_stamp(unsigned long v) { frame.stamp = v; }
void set_value(double v) { frame.value = v; }
void set_reading_raw(unsigned v) { reading.raw = v; }
void set_reading_value(double v) { reading.value = v; }
void set_later(double v) { readings[4].value = v; }
void set_any(unsigned long v) { *(anywhere *)&bytes[8] = v; }

void keep(unsigned at, int value) {
    history[at & 1023] = value;
    history[0] = value;
    history[1023] = value;
}

int kept(unsigned at) {
    return history[at & 1023] + history[512];
}
