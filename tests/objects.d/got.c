/* What other images define, reached by GOT slots; and common symbols, whose GOT loads are relaxed. */

extern char flag8;
extern unsigned short code16;
extern int count32;
extern long count64;
extern float gain32;
extern double gain64;
extern int row[64];
extern int convert(int microvolts);
extern void ring(int channel);

char own8;
short own16;
int own32;
long own64;
float own_gain32;
double own_gain64;
int own_row[64];

int load8(void) { return flag8; }
int load16(void) { return code16; }
int load32(void) { return count32; }
long load64(void) { return count64; }
long load_signed(void) { return count32; }
float load_float(void) { return gain32; }
double load_double(void) { return gain64; }
int load_later(void) { return row[5]; }

void store8(char v) { flag8 = v; }
void store16(unsigned short v) { code16 = v; }
void store32(int v) { count32 = v; }
void store64(long v) { count64 = v; }
void store_float(float v) { gain32 = v; }
void store_double(double v) { gain64 = v; }
void store_later(int v) { row[9] = v; }

int own_load8(void) { return own8; }
int own_load16(void) { return own16; }
int own_load32(void) { return own32; }
long own_load64(void) { return own64; }
long own_load_signed(void) { return own32; }
float own_load_float(void) { return own_gain32; }
double own_load_double(void) { return own_gain64; }
int own_load_later(void) { return own_row[5]; }

void own_store8(char v) { own8 = v; }
void own_store16(short v) { own16 = v; }
void own_store32(int v) { own32 = v; }
void own_store64(long v) { own64 = v; }
void own_store_float(float v) { own_gain32 = v; }
void own_store_double(double v) { own_gain64 = v; }
void own_store_later(int v) { own_row[9] = v; }

int *place(void) { return &count32; }
int *own_place(void) { return &own32; }
int (*converter(void))(int) { return convert; }

int all(int n) {
    int sum = 0;
    for (int i = 0; i < n; i++) {
        sum += convert(row[i]) + own_row[i];
        ring(i);
    }
    count32 += sum;
    own32 += sum;
    return sum;
}
