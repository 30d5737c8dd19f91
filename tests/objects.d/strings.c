/* Strings and pointers: to strings, into arrays, to functions, to other images' symbols. */

extern int outside;
extern int outside_row[8];
extern int parse(const char *text);

static int first(int a) { return a + 1; }
static int second(int a) { return a * 3; }
static int cells[16];

const char *const names[4] = {"type K", "type J", "type T", "type E"};
const char *unit = "degrees";
int *middle = &cells[7];
int *before = &cells[0] - 1;
int *foreign = &outside;
int *foreign_middle = &outside_row[3];
int (*const actions[3])(int) = {first, second, (int (*)(int))parse};
struct node {
    struct node *next;
    const char *text;
} ring[2] = {{&ring[1], "one"}, {&ring[0], "two"}};

const char *name(unsigned kind) { return names[kind & 3]; }
int act(unsigned which, int value) { return actions[which % 3](value); }
int parsed(void) { return parse("273.15 K") + parse("0 C"); }
const char *units(void) { return unit; }
int step(void) { return *middle + cells[3]; }

int message(int code) {
    switch (code) {
    case 0: return parse("open circuit");
    case 1: return parse("short circuit");
    case 2: return parse("over range");
    case 3: return parse("under range") + 1;
    case 4: return first(code) + parse("cold junction");
    case 5: return second(code);
    default: return 0;
    }
}
