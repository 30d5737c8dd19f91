/*
 * Replays a list of answers of the unchanged Rust by the calls of include/hauklivo.h.
 *
 *   replay [FILE]      (default: the standard input)
 *
 * tests/driver/answers.rs says what a list holds. Writes what the crates replay_* write of the same list, so that their
 * files `stdout` say what is expected. What a call may write stands between guards, at any alignment, but for slots of
 * 64-bit values, which are aligned. Each row is then
 * tried with a changed number and, where it has bytes of an answer, with one of those changed, and must be refused.
 */
#include "hauklivo.h"
#include "result.h"

#include <stdio.h>
#include <stdlib.h>
#include <string.h>

enum { TITLE = 0, READ = 1, FIX = 2, STUB = 3, THUNK = 4, HINTS = 5, CLASS = 6 };
enum { READ_HINTS = 7, WRITE_HINTS = 8, READ_X86_64 = 9, LISTED = 10 };
enum { GUARD = 32, GUARD_BYTE = 0xc3, MOST = 1 << 19 };

/* A record: what it is, the answer's number, the body's length, and values. */
struct head {
    uint8_t what, number;
    uint16_t len, v[6];
};

/* Why the last row did not hold. */
static const char *why;

result read_relocs(const uint8_t *, size_t, const void *, size_t, const uint64_t *, size_t, void *, size_t, size_t *)
    CALL(read_relocs);
result read_relocs_x86_64(const uint8_t *, size_t, const void *, size_t, const uint64_t *, size_t, uint64_t, void *, size_t,
                          size_t *) CALL(read_relocs_x86_64);
result apply_reloc_alloc(uint8_t *, size_t, uint64_t, uint64_t, uint64_t, const void *, size_t, const void *, size_t, void *,
                         size_t, size_t *) CALL(apply_reloc_alloc);
result write_stub(uint8_t *, size_t, uint64_t, uint64_t, uint8_t *) CALL(write_stub);
result write_thunk(uint8_t *, size_t, uint64_t, uint64_t) CALL(write_thunk);
result apply_hints(uint8_t *, size_t, const void *, size_t, const void *, size_t, struct hauklivo_tally *) CALL(apply_hints);
result apply_hints_listed(uint8_t *, size_t, const void *, size_t, const void *, size_t, void *, size_t,
                          struct hauklivo_tally *) CALL(apply_hints_listed);
result load_store_class(uint32_t) CALL(load_store_class);
result read_hints(const uint8_t *, size_t, uint64_t *, size_t, size_t *) CALL(read_hints);
result write_hints(const uint64_t *, size_t, uint8_t *, size_t, size_t *) CALL(write_hints);

/* Bytes lent between guards. */
struct lent {
    _Alignas(uint64_t) uint8_t room[GUARD + 8 + MOST + GUARD];
    uint8_t *bytes;
    size_t len;
};

static struct lent first, second;
static unsigned turn;

static uint8_t pattern(size_t i)
{
    return (uint8_t)(i * 37 + 11);
}

/* Lends bytes, or a pattern where there are none, so many bytes after one that is aligned to 8. */
static void lend_at(struct lent *lent, size_t after, const uint8_t *bytes, size_t len)
{
    lent->bytes = lent->room + GUARD + after;
    lent->len = len;
    memset(lent->bytes - GUARD, GUARD_BYTE, GUARD);
    memset(lent->bytes + len, GUARD_BYTE, GUARD);
    for (size_t i = 0; i < len; i++)
        lent->bytes[i] = bytes ? bytes[i] : pattern(i);
}

static void lend(struct lent *lent, const uint8_t *bytes, size_t len)
{
    lend_at(lent, turn % 8, bytes, len);
}

/* Whether lent bytes are those due, then the pattern, between their guards. */
static int became(const struct lent *lent, const uint8_t *due, size_t len)
{
    if (len > lent->len)
        return 0;
    for (size_t i = 0; i < lent->len; i++)
        if (lent->bytes[i] != (i < len ? due[i] : pattern(i)))
            return 0;
    for (size_t i = 0; i < GUARD; i++)
        if ((lent->bytes - GUARD)[i] != GUARD_BYTE || (lent->bytes + lent->len)[i] != GUARD_BYTE)
            return 0;
    return 1;
}

static int fails(const char *text)
{
    why = text;
    return 0;
}

static uint64_t read64(const uint8_t *at)
{
    uint64_t n = 0;
    for (int i = 7; i >= 0; i--)
        n = n << 8 | at[i];
    return n;
}

/* 64-bit values of a body, as a call is lent them. */
static const uint64_t *read_values(const uint8_t *at, size_t count)
{
    static uint64_t values[MOST / 8];
    for (size_t i = 0; i < count; i++)
        values[i] = read64(at + 8 * i);
    return values;
}

/* A count before a call, which a refused call leaves. */
#define UNCOUNTED ((size_t)0xa5a5a5a5a5a5a5a5)

static int counted(const struct head *h, result number, size_t count, size_t filled)
{
    if (number != h->number)
        return fails("the number");
    if (count != (number ? UNCOUNTED : filled))
        return fails("the count");
    return 1;
}

/* Only the reader of x86_64 is lent the section's own address. */
static int holds_read(const struct head *h, const uint8_t *body)
{
    const uint8_t *records = body + h->v[0], *sections = records + h->v[1], *own = sections + 8 * h->v[2];
    const uint8_t *entries = own + (h->what == READ_X86_64 ? 8 : 0);
    size_t count = UNCOUNTED;
    result number;
    if (entries + 24 * h->v[4] != body + h->len)
        return fails("the record's lengths");
    const uint64_t *addresses = read_values(sections, h->v[2]);
    lend(&first, NULL, h->v[3]);
    if (h->what == READ)
        number = read_relocs(body, h->v[0], records, h->v[1], addresses, h->v[2], first.bytes, h->v[3], &count);
    else
        number = read_relocs_x86_64(body, h->v[0], records, h->v[1], addresses, h->v[2], read64(own), first.bytes, h->v[3],
                                    &count);
    if (!counted(h, number, count, h->v[4]))
        return 0;
    return became(&first, entries, 24 * h->v[4]) || fails("the entries");
}

static int holds_fix(const struct head *h, const uint8_t *body)
{
    const uint8_t *section = body + 24, *entries = section + h->v[0], *targets = entries + h->v[1];
    const uint8_t *after = targets + h->v[2], *reports = after + h->v[0];
    size_t count = UNCOUNTED;
    if (reports + 24 * h->v[4] != body + h->len)
        return fails("the record's lengths");
    lend(&first, section, h->v[0]);
    lend(&second, NULL, h->v[3]);
    result number = apply_reloc_alloc(first.bytes, h->v[0], read64(body), read64(body + 8), read64(body + 16), entries, h->v[1],
                                      targets, h->v[2], second.bytes, h->v[3], &count);
    if (!counted(h, number, count, h->v[4]))
        return 0;
    if (!became(&first, after, h->v[0]))
        return fails("the section");
    return became(&second, reports, 24 * h->v[4]) || fails("the reports");
}

static int holds_stub(const struct head *h, const uint8_t *body)
{
    uint8_t reaches = 0xa5;
    result number;
    if (h->len != 16 + h->v[0])
        return fails("the record's lengths");
    lend(&first, NULL, h->v[0]);
    if (h->what == STUB)
        number = write_stub(first.bytes, h->v[0], read64(body), read64(body + 8), &reaches);
    else
        number = write_thunk(first.bytes, h->v[0], read64(body), read64(body + 8));
    if (number != h->number)
        return fails("the number");
    if (reaches != (number || h->what == THUNK ? 0xa5 : h->v[1]))
        return fails("whether it reaches");
    return became(&first, body + 16, h->v[0]) || fails("the bytes");
}

/* Only a listed run is lent slots, for its rule records. */
static int holds_hints(const struct head *h, const uint8_t *body)
{
    const uint8_t *image = body + 16, *hints = image + h->v[0], *entries = hints + h->v[1], *after = entries + h->v[2];
    const uint8_t *records = after + h->v[0];
    struct hauklivo_tally tally, untold;
    result number;
    memset(&tally, 0xa5, sizeof tally);
    memset(&untold, 0xa5, sizeof untold);
    if (records + 16 * h->v[4] != body + h->len)
        return fails("the record's lengths");
    lend(&first, image, h->v[0]);
    lend(&second, NULL, h->v[3]);
    if (h->what == HINTS)
        number = apply_hints(first.bytes, h->v[0], hints, h->v[1], entries, h->v[2], &tally);
    else
        number = apply_hints_listed(first.bytes, h->v[0], hints, h->v[1], entries, h->v[2], second.bytes, h->v[3], &tally);
    if (number != h->number)
        return fails("the number");
    if (memcmp(&tally, number ? (const void *)&untold : body, sizeof tally))
        return fails("the tally");
    if (!became(&first, after, h->v[0]))
        return fails("the image");
    return became(&second, records, 16 * h->v[4]) || fails("the rule records");
}

/* Here the number is an entry of the table of classes. */
static int holds_class(const struct head *h, const uint8_t *body)
{
    if (h->len != 4)
        return fails("the record's lengths");
    uint32_t word = body[0] | body[1] << 8 | body[2] << 16 | (uint32_t)body[3] << 24;
    return load_store_class(word) == h->number || fails("the entry");
}

static int holds_read_hints(const struct head *h, const uint8_t *body)
{
    const uint8_t *row = body + h->v[0];
    size_t count = UNCOUNTED;
    if (row + 8 * h->v[2] != body + h->len)
        return fails("the record's lengths");
    lend_at(&first, 0, NULL, 8 * h->v[1]);
    result number = read_hints(body, h->v[0], (uint64_t *)(void *)first.bytes, h->v[1], &count);
    if (!counted(h, number, count, h->v[2]))
        return 0;
    return became(&first, row, 8 * h->v[2]) || fails("the row");
}

static int holds_write_hints(const struct head *h, const uint8_t *body)
{
    const uint8_t *payload = body + 8 * h->v[0];
    size_t count = UNCOUNTED;
    if (payload + h->v[2] != body + h->len)
        return fails("the record's lengths");
    lend(&first, NULL, h->v[1]);
    result number = write_hints(read_values(body, h->v[0]), h->v[0], first.bytes, h->v[1], &count);
    if (!counted(h, number, count, h->v[2]))
        return 0;
    return became(&first, payload, h->v[2]) || fails("the payload");
}

static int holds(const struct head *h, const uint8_t *body)
{
    turn++;
    switch (h->what) {
    case READ:
    case READ_X86_64: return holds_read(h, body);
    case FIX: return holds_fix(h, body);
    case STUB:
    case THUNK: return holds_stub(h, body);
    case HINTS:
    case LISTED: return holds_hints(h, body);
    case CLASS: return holds_class(h, body);
    case READ_HINTS: return holds_read_hints(h, body);
    case WRITE_HINTS: return holds_write_hints(h, body);
    default: return fails("no such call is known here: tests/arm.d/replay.c must learn it");
    }
}

/* How many bytes at the body's end are an answer's. */
static size_t answered(const struct head *h)
{
    switch (h->what) {
    case READ:
    case READ_X86_64: return 24 * h->v[4];
    case FIX: return h->v[0] + 24 * h->v[4];
    case LISTED: return h->v[0] + 16 * h->v[4];
    case READ_HINTS: return 8 * h->v[2];
    case WRITE_HINTS: return h->v[2];
    default: return h->v[0];
    }
}

/* Whether a row that holds is refused once its number, or a byte of its answer, is another. */
static int can_fail(const struct head *h, uint8_t *body)
{
    struct head other = *h;
    size_t own = answered(h);
    other.number ^= 1 + turn % 15;
    if (holds(&other, body))
        return fails("a changed number is not seen");
    if (own > 0) {
        uint8_t *byte = body + h->len - 1 - turn % own, before = *byte;
        *byte ^= 1 << turn % 8;
        int seen = !holds(h, body);
        *byte = before;
        if (!seen)
            return fails("a changed byte is not seen");
    }
    return 1;
}

/* The next record; its body goes to `body`. 1, or 0 at the end, or -1 where it is broken. */
static int next(FILE *list, struct head *h, uint8_t *body)
{
    uint8_t b[16];
    size_t n = fread(b, 1, sizeof b, list);
    if (n == 0 && feof(list))
        return 0;
    if (n < sizeof b)
        return -1;
    *h = (struct head){.what = b[0], .number = b[1], .len = (uint16_t)(b[2] | b[3] << 8)};
    for (int i = 0; i < 6; i++)
        h->v[i] = (uint16_t)(b[4 + 2 * i] | b[5 + 2 * i] << 8);
    return fread(body, 1, h->len, list) == h->len ? 1 : -1;
}

int main(int argc, char **argv)
{
    static uint8_t body[MOST];
    struct head h;
    unsigned long row = 0, held = 0;
    int state;
    FILE *list = argc > 1 ? fopen(argv[1], "rb") : stdin;
    if (!list) {
        perror(argv[1]);
        return 2;
    }
    while ((state = next(list, &h, body)) == 1) {
        if (h.what == TITLE) {
            printf("%.*s: %lu\n", (int)h.len, (const char *)body, row);
            row = 0;
            continue;
        }
        if (!holds(&h, body) || !can_fail(&h, body)) {
            fprintf(stderr, "row %lu, a record of kind %d: %s\n", held + 1, h.what, why);
            break;
        }
        row++;
        held++;
    }
    if (state == -1)
        fprintf(stderr, "the list is broken after row %lu\n", held);
    printf("%lu answers, %d differences\n", held, state != 0);
    return state != 0 || held == 0;
}
