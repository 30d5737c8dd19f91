/* Scales of thermocouples by authenticated pointers: the example for arm64e. `make`, beside it, compiles it. */

typedef double scale(double raw);

extern scale custom; /* another image's: dyld binds the pointer to it */

double coefficients[4] = {0.0, 24.7, 49.3, 73.9}; /* calibrated in place */

static double type_k(double raw)
{
    return raw * coefficients[1];
}

static double type_j(double raw)
{
    return raw * coefficients[2];
}

/* By key IA, without diversity: as every pointer to a function is signed. */
scale *const scales[3] = {type_k, type_j, custom};

/* By IB with a diversity, and by IA with one and the pointer's own address. */
scale *__ptrauth(1, 0, 42) chosen = type_j;
scale *__ptrauth(0, 1, 0xd9bf) standby = type_k;

/* Pointers to data, by the two keys for these. */
double *__ptrauth(2, 1, 65535) from = coefficients + 1;
double *__ptrauth(3, 0, 0) counted = coefficients - 1; /* for indices from 1 on */

double converted(unsigned kind, double raw)
{
    return (kind < 3 ? scales[kind](raw) : chosen(raw)) + *from;
}
