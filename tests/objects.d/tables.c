/* Thermocouple tables: constants by an index, polynomials, tables of tables. */

static const double type_k[12] = {
    0.0, 25.08355, 7.860106e-2, -2.503131e-1, 8.315270e-2, -1.228034e-2, 9.804036e-4, -4.413030e-5,
    1.057734e-6, -1.052755e-8, 0.0, 0.0,
};
static const float type_j[8] = {0.0f, 19.78425f, -0.2001204f, 0.01036969f, -2.549687e-4f, 3.585153e-6f, 0.0f, 0.0f};
const short millivolts[300] = {[0] = 0, [25] = 1000, [50] = 2023, [299] = 12207};
const double *const by_kind[2] = {type_k, type_k + 6};
const signed char correction[16] = {0, 1, 1, 2, 2, 3, 3, 2, 2, 1, 1, 0, 0, -1, -1, -2};

double kelvin_offset(void) {
    return 273.15;
}

double coefficient(unsigned step) {
    return type_k[step % 12];
}

float coefficient_j(unsigned step) {
    return type_j[step & 7];
}

double polynomial(double volts) {
    double sum = 0.0;
    for (int i = 9; i >= 0; i--)
        sum = sum * volts + type_k[i];
    return sum;
}

int reference(unsigned step) {
    return millivolts[step % 300] + correction[step & 15];
}

int boiling(void) {
    return *(const volatile short *)&millivolts[250];
}

const double *table(unsigned kind) {
    return by_kind[kind & 1];
}

double leading(unsigned kind) {
    return by_kind[kind & 1][1];
}
