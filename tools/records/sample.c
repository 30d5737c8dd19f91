// Code as a compiler emits it: tables of pointers, calls, thread-local variables, constants. For both machines.
extern int gain;
extern int read_sensor(int, const char *);
extern _Thread_local int channel;
_Thread_local int retries = 3;
static int table[4] = {1, 2, 3, 4};
int *cells[] = {&table[0], &table[2], &gain};
const char *names[] = {"upper", "lower", "inner"};

static int weigh(int x) { return x * table[x & 3]; }

int (*functions[])(int) = {weigh, 0};

int total(int n) {
  int sum = gain + channel + retries;
  for (int i = 0; i < n; i++) sum += read_sensor(i, names[i % 3]) + *cells[i & 1];
  return sum;
}

void store(int v) {
  table[1] = v;
  gain = v;
}

double scale(double x) { return x * 3.14159; }

int pick(int k) {
  switch (k) {
  case 0: return 11;
  case 1: return gain;
  case 2: return channel;
  case 3: return total(3);
  case 4: return 99;
  case 5: return retries;
  }
  return 0;
}
