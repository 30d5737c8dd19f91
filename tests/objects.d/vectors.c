/* Vector constants and vectors in memory. */

typedef double float64x2 __attribute__((vector_size(16)));
typedef float float32x4 __attribute__((vector_size(16)));
typedef float float32x2 __attribute__((vector_size(8)));
typedef signed char int8x16 __attribute__((vector_size(16)));
typedef unsigned short uint16x8 __attribute__((vector_size(16)));

static float64x2 pair = {1.0, 2.0};
float32x4 quad = {1.0f, 2.0f, 3.0f, 4.0f};
float64x2 common_pair;
extern float64x2 other_pair;

float64x2 scale(float64x2 v) {
    return v * (float64x2){24.39, 19.23};
}

float32x4 shift(float32x4 v) {
    return v + (float32x4){0.5f, 1.25f, 7.5f, 11.0f};
}

float32x2 half(float32x2 v) {
    return v * (float32x2){0.1f, 0.2f};
}

int8x16 spread(int8x16 v) {
    return __builtin_shufflevector(v, v, 3, 1, 4, 1, 5, 9, 2, 6, 5, 3, 5, 8, 9, 7, 9, 3);
}

uint16x8 weights(uint16x8 v) {
    return v * (uint16x8){3, 1, 4, 1, 5, 9, 2, 6};
}

float64x2 both(void) {
    return pair + common_pair + other_pair;
}

void keep(float64x2 v, float32x4 w) {
    pair = v;
    quad = w;
    common_pair = v;
    other_pair = v;
}

double tiny(double v) {
    return v * 1.602176634e-19;
}

float small(float v) {
    return v * 0.0073f;
}
