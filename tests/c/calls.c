/* Calls every function of hauklivo.h and checks numbers, counts and bytes. */
#include "hauklivo.h"

#include <stdio.h>
#include <string.h>

static int failures;

#define CHECK(test)                                                          \
    do {                                                                     \
        if (!(test)) {                                                       \
            printf("%s:%d: %s does not hold\n", __FILE__, __LINE__, #test); \
            failures++;                                                      \
        }                                                                    \
    } while (0)

enum { FILL = 0xa5, UNTOUCHED = 77 };

static uint32_t word_at(const uint8_t *bytes, size_t at)
{
    return bytes[at] | bytes[at + 1] << 8 | bytes[at + 2] << 16 | (uint32_t)bytes[at + 3] << 24;
}

static void put_word(uint8_t *bytes, size_t at, uint32_t word)
{
    for (int i = 0; i < 4; i++)
        bytes[at + i] = (uint8_t)(word >> 8 * i);
}

/* Puts a word of 8 bytes at the start. */
static void put_pointer(uint8_t *bytes, uint64_t word)
{
    put_word(bytes, 0, (uint32_t)word);
    put_word(bytes, 4, (uint32_t)(word >> 32));
}

static int filled(const void *bytes, size_t len)
{
    const uint8_t *b = bytes;
    for (size_t i = 0; i < len; i++)
        if (b[i] != FILL)
            return 0;
    return 1;
}

/* Whether an entry does not say how a pointer is signed. */
static int without_signing(const struct hauklivo_reloc *entry)
{
    return entry->diversity == 0 && entry->address_diversity == 0 && entry->key == 0;
}

/* A call of the reader that must answer `number` and leave slots and count. */
static void refused_reading(uint8_t number, const uint8_t *contents, size_t contents_len,
                            const struct hauklivo_mach_rel *records, size_t records_len, size_t slots_len)
{
    const uint64_t sections[1] = {0x4000};
    struct hauklivo_reloc slots[4];
    size_t count = UNTOUCHED;
    memset(slots, FILL, sizeof slots);
    CHECK(hauklivo_read_relocs(contents, contents_len, records, records_len, sections, 1, slots, slots_len,
                               &count) == number);
    CHECK(filled(slots, sizeof slots));
    CHECK(count == UNTOUCHED);
}

static void reader(void)
{
    uint8_t contents[16] = {0};
    const uint64_t sections[1] = {0x4000};
    struct hauklivo_reloc slots[4];
    size_t count = UNTOUCHED;

    /* ADDEND -1 with the PAGE21 of symbol 5: one entry, at the ADDEND record's offset. */
    const struct hauklivo_mach_rel pair[2] = {{4, 0xa4ffffff}, {8, 0x3d000005}};
    memset(slots, FILL, sizeof slots);
    CHECK(hauklivo_read_relocs(contents, sizeof contents, pair, sizeof pair, sections, 1, slots, sizeof slots,
                               &count) == HAUKLIVO_DONE);
    CHECK(count == 1);
    CHECK(slots[0].offset == 4 && slots[0].type == HAUKLIVO_PAGE21 && slots[0].size == 4);
    CHECK(slots[0].is_pcrel == 1 && slots[0].is_subtracted == 0 && slots[0].target == 5);
    CHECK(without_signing(slots) && slots[0].addend == -1);
    CHECK(filled(slots + 1, sizeof slots - sizeof slots[0]));

    /* A pointer into section 1, whose address is taken off. */
    const struct hauklivo_mach_rel pointer[1] = {{0, 0x06000001}};
    put_word(contents, 0, 0x4010);
    CHECK(hauklivo_read_relocs(contents, sizeof contents, pointer, sizeof pointer, sections, 1, slots,
                               sizeof slots, &count) == HAUKLIVO_DONE);
    CHECK(count == 1 && slots[0].target == HAUKLIVO_SECTION_TARGET && slots[0].addend == 0x10);

    /* The sections are counted by addresses: 2 are two sections, not two bytes. */
    const uint64_t two[2] = {0x4000, 0x4004};
    const struct hauklivo_mach_rel second[1] = {{0, 0x06000002}};
    CHECK(hauklivo_read_relocs(contents, sizeof contents, second, sizeof second, two, 2, slots, sizeof slots,
                               &count) == HAUKLIVO_DONE);
    CHECK(count == 1 && slots[0].target == HAUKLIVO_SECTION_TARGET + 1 && slots[0].addend == 0xc);
    CHECK(hauklivo_read_relocs(contents, sizeof contents, second, sizeof second, two, 1, slots, sizeof slots,
                               &count) == HAUKLIVO_NO_SECTION);

    /* Empty lists succeed, and a count may be uninitialised. */
    size_t fresh;
    CHECK(hauklivo_read_relocs(contents, 0, pair, 0, sections, 0, slots, 0, &fresh) == HAUKLIVO_DONE);
    CHECK(fresh == 0);

    put_word(contents, 12, 0xd503201f);
    refused_reading(HAUKLIVO_LENGTHS, contents, 16, pair, 7, sizeof slots);
    refused_reading(HAUKLIVO_SLOTS, contents, 16, pair, 16, 47);
    const struct hauklivo_mach_rel past[1] = {{17, 0x3d000005}};
    refused_reading(HAUKLIVO_BOUNDS, contents, 16, past, 8, sizeof slots);
    const struct hauklivo_mach_rel lone[1] = {{0, 0xa4000000}};
    refused_reading(HAUKLIVO_LONE_ADDEND, contents, 16, lone, 8, sizeof slots);
    const struct hauklivo_mach_rel pointer32[1] = {{0, 0x0c000000}};
    refused_reading(HAUKLIVO_UNSUPPORTED, contents, 16, pointer32, 8, sizeof slots);
    const struct hauklivo_mach_rel nop[1] = {{12, 0x9c000000}};
    refused_reading(HAUKLIVO_UNFIT, contents, 16, nop, 8, sizeof slots);
    const struct hauklivo_mach_rel ordinal0[1] = {{0, 0x06000000}};
    refused_reading(HAUKLIVO_NO_SECTION, contents, 16, ordinal0, 8, sizeof slots);
}

/* Sections of an x86_64 object, and the second one's bytes: -2, 0x4010, 0x2004 and -1 in 4 bytes each. */
static const uint64_t x86_64_sections[3] = {0x4000, 0x6000, 0x8000};
static const uint8_t x86_64_code[16] = {0xfe, 0xff, 0xff, 0xff, 0x10, 0x40, 0, 0,
                                        4,    0x20, 0,    0,    0xff, 0xff, 0xff, 0xff};

/* A call of the x86_64 reader that must answer `number` and leave slots and count. */
static void refused_reading_x86_64(uint8_t number, const struct hauklivo_mach_rel *records, size_t records_len,
                                   size_t slots_len)
{
    struct hauklivo_reloc slots[4];
    size_t count = UNTOUCHED;
    memset(slots, FILL, sizeof slots);
    CHECK(hauklivo_read_relocs_x86_64(x86_64_code, sizeof x86_64_code, records, records_len, x86_64_sections, 3,
                                      0x6000, slots, slots_len, &count) == number);
    CHECK(filled(slots, sizeof slots));
    CHECK(count == UNTOUCHED);
}

/* A record of a symbol, or of a section by its ordinal, and the entry that it must come to, at the same offset. */
struct x86_64_row {
    struct hauklivo_mach_rel record;
    uint8_t type, size, is_pcrel, is_subtracted;
    uint32_t target;
    int64_t addend;
};

/* Every type and width, extern and of a section. */
static const struct x86_64_row x86_64_rows[] = {
    {{0, 0x29000005}, HAUKLIVO_X86_64_BRANCH, 1, 1, 0, 5, -2},
    {{0, 0x2d000005}, HAUKLIVO_X86_64_BRANCH, 4, 1, 0, 5, -2},
    {{0, 0x1d000005}, HAUKLIVO_X86_64_SIGNED, 4, 1, 0, 5, -2},
    {{0, 0x6d000005}, HAUKLIVO_X86_64_SIGNED_1, 4, 1, 0, 5, -1},
    {{0, 0x7d000005}, HAUKLIVO_X86_64_SIGNED_2, 4, 1, 0, 5, 0},
    {{0, 0x8d000005}, HAUKLIVO_X86_64_SIGNED_4, 4, 1, 0, 5, 2},
    {{0, 0x3d000005}, HAUKLIVO_X86_64_GOT_LOAD, 4, 1, 0, 5, -2},
    {{0, 0x4d000005}, HAUKLIVO_X86_64_GOT, 4, 1, 0, 5, -2},
    {{0, 0x9d000005}, HAUKLIVO_X86_64_TLV, 4, 1, 0, 5, -2},
    {{4, 0x5c000005}, HAUKLIVO_X86_64_SUBTRACTOR, 4, 0, 0, 5, 0x4010},
    {{4, 0x0c000006}, HAUKLIVO_X86_64_UNSIGNED, 4, 0, 1, 6, 0x4010},
    {{0, 0x5e000005}, HAUKLIVO_X86_64_SUBTRACTOR, 8, 0, 0, 5, 0x4010fffffffe},
    {{0, 0x0e000006}, HAUKLIVO_X86_64_UNSIGNED, 8, 0, 1, 6, 0x4010fffffffe},
    {{0, 0x0c000005}, HAUKLIVO_X86_64_UNSIGNED, 4, 0, 0, 5, -2}, /* 4 bytes alone */
    {{4, 0x04000001}, HAUKLIVO_X86_64_UNSIGNED, 4, 0, 0, HAUKLIVO_SECTION_TARGET, 0x10},
    {{0, 0x06000003}, HAUKLIVO_X86_64_UNSIGNED, 8, 0, 0, HAUKLIVO_SECTION_TARGET + 2, 0x4010ffff7ffe},
    /* From 0x600c on 0x2004 and what the type adds, less 0x8000. */
    {{8, 0x15000003}, HAUKLIVO_X86_64_SIGNED, 4, 1, 0, HAUKLIVO_SECTION_TARGET + 2, 0x10},
    {{8, 0x65000003}, HAUKLIVO_X86_64_SIGNED_1, 4, 1, 0, HAUKLIVO_SECTION_TARGET + 2, 0x11},
    {{8, 0x75000003}, HAUKLIVO_X86_64_SIGNED_2, 4, 1, 0, HAUKLIVO_SECTION_TARGET + 2, 0x12},
    {{8, 0x85000003}, HAUKLIVO_X86_64_SIGNED_4, 4, 1, 0, HAUKLIVO_SECTION_TARGET + 2, 0x14},
    {{8, 0x25000003}, HAUKLIVO_X86_64_BRANCH, 4, 1, 0, HAUKLIVO_SECTION_TARGET + 2, 0x10},
};
enum { X86_64_ROWS = sizeof x86_64_rows / sizeof *x86_64_rows };

static void reader_x86_64(void)
{
    struct hauklivo_mach_rel records[X86_64_ROWS];
    struct hauklivo_reloc slots[X86_64_ROWS + 1];
    size_t count = UNTOUCHED;

    for (int i = 0; i < X86_64_ROWS; i++)
        records[i] = x86_64_rows[i].record;
    memset(slots, FILL, sizeof slots);
    CHECK(hauklivo_read_relocs_x86_64(x86_64_code, sizeof x86_64_code, records, sizeof records, x86_64_sections, 3,
                                      0x6000, slots, sizeof slots, &count) == HAUKLIVO_DONE);
    CHECK(count == X86_64_ROWS && filled(slots + X86_64_ROWS, sizeof *slots));
    for (int i = 0; i < X86_64_ROWS; i++) {
        const struct x86_64_row *row = x86_64_rows + i;
        CHECK(slots[i].offset == row->record.offset && slots[i].type == row->type && slots[i].size == row->size);
        CHECK(slots[i].is_pcrel == row->is_pcrel && slots[i].is_subtracted == row->is_subtracted);
        CHECK(slots[i].target == row->target && without_signing(slots + i) && slots[i].addend == row->addend);
    }

    /* Sums wrap: 2^64 - 4 and 8, 4, 0x2004, less 0x4000. */
    const struct hauklivo_mach_rel one[1] = {{8, 0x15000001}};
    CHECK(hauklivo_read_relocs_x86_64(x86_64_code, sizeof x86_64_code, one, sizeof one, x86_64_sections, 1,
                                      UINT64_MAX - 3, slots, sizeof slots, &count) == HAUKLIVO_DONE);
    CHECK(count == 1 && slots[0].addend == 0x200c - 0x4000);

    /* Empty lists succeed, and a count may be uninitialised. */
    size_t fresh;
    CHECK(hauklivo_read_relocs_x86_64(x86_64_code, 0, one, 0, x86_64_sections, 0, 0, slots, 0, &fresh)
          == HAUKLIVO_DONE);
    CHECK(fresh == 0);
}

static void refused_x86_64(void)
{
    const struct hauklivo_mach_rel type10 = {0, 0xad000005}, far10 = {17, 0xad000005}, jump = {0, 0x21000001};
    const struct hauklivo_mach_rel got = {0, 0x45000001}, past = {17, 0x1d000005}, both = {13, 0x15000004};
    const struct hauklivo_mach_rel absent = {0, 0x15000004}, none = {0, 0x06000000}, good = {0, 0x1d000005};

    refused_reading_x86_64(HAUKLIVO_LENGTHS, &good, 7, 0);
    refused_reading_x86_64(HAUKLIVO_SLOTS, &type10, 8, 23);
    refused_reading_x86_64(HAUKLIVO_UNSUPPORTED, &type10, 8, 24);
    refused_reading_x86_64(HAUKLIVO_UNSUPPORTED, &jump, 8, 24); /* a short jump to a section */
    refused_reading_x86_64(HAUKLIVO_UNSUPPORTED, &got, 8, 24);  /* the GOT slot of a section */
    refused_reading_x86_64(HAUKLIVO_BOUNDS, &past, 8, 24);
    for (int i = 0; i < X86_64_ROWS; i++) { /* one byte is missing */
        const struct hauklivo_mach_rel cut = {17 - x86_64_rows[i].size, x86_64_rows[i].record.bits};
        refused_reading_x86_64(HAUKLIVO_BOUNDS, &cut, 8, 24);
    }
    refused_reading_x86_64(HAUKLIVO_NO_SECTION, &absent, 8, 24);
    refused_reading_x86_64(HAUKLIVO_NO_SECTION, &none, 8, 24);

    /* In this order: 5, 3, 7; and the first record that is refused. */
    refused_reading_x86_64(HAUKLIVO_UNSUPPORTED, &far10, 8, 24);
    refused_reading_x86_64(HAUKLIVO_BOUNDS, &both, 8, 24);
    const struct hauklivo_mach_rel lists[2][3] = {{good, absent, type10}, {good, past, absent}};
    refused_reading_x86_64(HAUKLIVO_NO_SECTION, lists[0], 24, 72);
    refused_reading_x86_64(HAUKLIVO_BOUNDS, lists[1], 24, 72);
}

/* The image base of fix-ups of authenticated pointers, and of those that must be refused. */
static const uint64_t image_base = UINT64_C(0x100000000);

/* A fix-up of one or two entries that must answer `number` and leave section, slots and count. */
static void refused_fixing(uint8_t number, uint64_t base, const struct hauklivo_reloc *entries,
                           size_t entries_len, const struct hauklivo_resolved *targets, size_t targets_len,
                           size_t slots_len)
{
    uint8_t section[8];
    struct hauklivo_report slots[2];
    size_t count = UNTOUCHED;
    memset(section, FILL, sizeof section);
    memset(slots, FILL, sizeof slots);
    CHECK(hauklivo_apply_reloc_alloc(section, sizeof section, base, 0, image_base, entries, entries_len, targets,
                                     targets_len, slots, slots_len, &count) == number);
    CHECK(filled(section, sizeof section));
    CHECK(filled(slots, sizeof slots));
    CHECK(count == UNTOUCHED);
}

static void fixup(void)
{
    uint8_t section[12];
    struct hauklivo_report slots[3];
    size_t count = UNTOUCHED;
    const struct hauklivo_reloc entries[3] = {
        {.offset = 0, .type = HAUKLIVO_BRANCH26, .size = 4, .is_pcrel = 1},
        {.offset = 4, .type = HAUKLIVO_PAGEOFF12, .size = 4},
        {.offset = 8, .type = HAUKLIVO_GOT_LOAD_PAGEOFF12, .size = 4},
    };
    const struct hauklivo_resolved targets[3] = {
        {.branch = 0xffc},
        {.address = 0x1234, .flags = HAUKLIVO_HAS_ADDRESS},
        {.address = 0x1234, .flags = HAUKLIVO_HAS_ADDRESS | HAUKLIVO_RELAXES_GOT},
    };
    put_word(section, 0, 0x94000000);
    put_word(section, 4, 0xf9400000);
    put_word(section, 8, 0xf9400000);
    memset(slots, FILL, sizeof slots);

    /* BL back by one word; LDR X of an address that 8 does not divide; a relaxed GOT load. */
    CHECK(hauklivo_apply_reloc_alloc(section, sizeof section, 0x1000, 0, 0, entries, sizeof entries, targets,
                                     sizeof targets, slots, sizeof slots, &count) == HAUKLIVO_DONE);
    CHECK(word_at(section, 0) == 0x97ffffff);
    CHECK(word_at(section, 4) == 0xf9400000);
    CHECK(word_at(section, 8) == 0x9108d000);
    CHECK(count == 1);
    CHECK(slots[0].entry == 1 && slots[0].kind == HAUKLIVO_REPORT_ALIGNMENT && slots[0].size == 8);
    CHECK(slots[0].zero == 0 && slots[0].place == 0 && slots[0].target == 0);
    CHECK(filled(slots + 1, sizeof slots - sizeof slots[0]));

    /* Empty lists succeed. */
    count = UNTOUCHED;
    CHECK(hauklivo_apply_reloc_alloc(section, 0, 0, 0, 0, entries, 0, targets, 0, slots, 0, &count) == HAUKLIVO_DONE);
    CHECK(count == 0);

    const struct hauklivo_reloc pointer = {.type = HAUKLIVO_UNSIGNED, .size = 8};
    const struct hauklivo_reloc at4 = {.offset = 4, .type = HAUKLIVO_UNSIGNED, .size = 8};
    const struct hauklivo_reloc type10 = {.type = HAUKLIVO_ADDEND, .size = 4};
    const struct hauklivo_reloc lone = {.type = HAUKLIVO_SUBTRACTOR, .size = 8};
    const struct hauklivo_reloc got = {.type = HAUKLIVO_POINTER_TO_GOT, .size = 4, .target = HAUKLIVO_SECTION_TARGET};
    const struct hauklivo_resolved plain = {.flags = HAUKLIVO_HAS_ADDRESS};
    const struct hauklivo_resolved odd = {.flags = 0x200};
    refused_fixing(HAUKLIVO_LENGTHS, 0, &pointer, 23, &plain, 48, 24);
    refused_fixing(HAUKLIVO_LENGTHS, 0, &pointer, 24, &plain, 0, 24);
    refused_fixing(HAUKLIVO_SLOTS, 0, &pointer, 24, &plain, 48, 23);
    refused_fixing(HAUKLIVO_BOUNDS, 0, &at4, 24, &plain, 48, 24);
    refused_fixing(HAUKLIVO_UNSUPPORTED, 0, &type10, 24, &plain, 48, 24);
    refused_fixing(HAUKLIVO_LONE_SUBTRACTOR, 0, &lone, 24, &plain, 48, 24);
    refused_fixing(HAUKLIVO_OVERFLOW, UINT64_MAX, &at4, 24, &plain, 48, 24);
    refused_fixing(HAUKLIVO_NEEDS_SYMBOL, 0, &got, 24, &plain, 48, 24);
    refused_fixing(HAUKLIVO_FLAGS, 0, &pointer, 24, &odd, 48, 24);
}

/* A stored word that must be read as these fields. */
static void reads_pointer(uint64_t word, int64_t addend, uint16_t diversity, uint8_t address_diversity, uint8_t key)
{
    const struct hauklivo_mach_rel record = {0, 0xbe000002};
    const uint64_t sections[1] = {0};
    struct hauklivo_reloc entry;
    uint8_t contents[8];
    size_t count;
    put_pointer(contents, word);
    CHECK(hauklivo_read_relocs(contents, 8, &record, 8, sections, 0, &entry, 24, &count) == HAUKLIVO_DONE);
    CHECK(count == 1);
    CHECK(entry.offset == 0 && entry.type == HAUKLIVO_AUTHENTICATED_POINTER && entry.size == 8 && entry.target == 2);
    CHECK(entry.is_pcrel == 0 && entry.is_subtracted == 0 && entry.addend == addend);
    CHECK(entry.diversity == diversity && entry.address_diversity == address_diversity && entry.key == key);
    const uint8_t *bytes = (const uint8_t *)&entry;
    CHECK(bytes[12] == (diversity & 0xff) && bytes[13] == diversity >> 8);
    CHECK(bytes[14] == address_diversity && bytes[15] == key);
}

static void reader_of_pointers(void)
{
    const struct hauklivo_mach_rel good = {0, 0xbe000002}, past = {9, 0xbe000002}, narrow = {0, 0xbc000002};
    const struct hauklivo_mach_rel pcrel = {0, 0xbf000002}, section = {0, 0xb6000001}, section_past = {9, 0xb6000001};
    uint8_t contents[16] = {0};

    reads_pointer(UINT64_C(0x8001002a00000000), 0, 42, 1, 0);
    reads_pointer(UINT64_C(0x8006000000000007), 7, 0, 0, 3);
    reads_pointer(UINT64_C(0x8004fffffffffffd), -3, 65535, 0, 2);
    reads_pointer(UINT64_C(0x8000000000000000), 0, 0, 0, 0);

    /* Bits 51 to 62 are zero, and bit 63 is set. */
    for (int bit = 51; bit < 64; bit++) {
        put_pointer(contents, UINT64_C(0x8000000000000000) ^ UINT64_C(1) << bit);
        refused_reading(HAUKLIVO_NOT_AUTHENTICATED, contents, 16, &good, 8, 24);
    }

    /* Of 4 bytes, pc-relative, of a section; the form before the bytes, and those before what they hold. */
    refused_reading(HAUKLIVO_UNSUPPORTED, contents, 16, &narrow, 8, 24);
    refused_reading(HAUKLIVO_UNSUPPORTED, contents, 16, &pcrel, 8, 24);
    refused_reading(HAUKLIVO_UNSUPPORTED, contents, 16, &section, 8, 24);
    refused_reading(HAUKLIVO_UNSUPPORTED, contents, 16, &section_past, 8, 24);
    refused_reading(HAUKLIVO_BOUNDS, contents, 16, &past, 8, 24);
}

/* Of a fix-up of one entry of 8 bytes the number; what it leaves goes to `word`. */
static uint8_t fixes_pointer(const struct hauklivo_reloc *entry, const struct hauklivo_resolved *target, uint64_t image,
                             uint64_t *word)
{
    struct hauklivo_report report;
    uint8_t section[8];
    size_t count = UNTOUCHED;
    memset(section, FILL, sizeof section);
    uint8_t number =
        hauklivo_apply_reloc_alloc(section, 8, 0x1000, 0x100, image, entry, 24, target, 48, &report, 24, &count);
    CHECK(count == (number ? UNTOUCHED : 0));
    *word = word_at(section, 0) | (uint64_t)word_at(section, 4) << 32;
    return number;
}

static void fixup_of_pointers(void)
{
    const uint64_t kept = UINT64_C(0xa5a5a5a5a5a5a5a5);
    struct hauklivo_reloc entry = {.type = HAUKLIVO_AUTHENTICATED_POINTER, .size = 8};
    struct hauklivo_resolved target = {.address = UINT64_C(0x100008010), .flags = HAUKLIVO_HAS_ADDRESS};
    uint64_t word;

    entry.diversity = 0xd9bf, entry.address_diversity = 1, entry.key = 2;
    CHECK(fixes_pointer(&entry, &target, image_base, &word) == 0 && word == UINT64_C(0x8005d9bf00008010));
    /* Of the two bytes the low bit and the low two count; an addend is added. */
    entry.address_diversity = 0xfe, entry.key = 0xfd, entry.addend = -0x10;
    CHECK(fixes_pointer(&entry, &target, image_base, &word) == 0 && word == UINT64_C(0x8002d9bf00008000));

    /* From the image base on, up to 2^32 - 1. */
    target.address = image_base + 0x10;
    CHECK(fixes_pointer(&entry, &target, image_base, &word) == 0 && word == UINT64_C(0x8002d9bf00000000));
    CHECK(fixes_pointer(&entry, &target, image_base + 1, &word) == HAUKLIVO_FAR_FROM_IMAGE && word == kept);
    target.address += UINT32_MAX;
    CHECK(fixes_pointer(&entry, &target, image_base, &word) == 0 && word == UINT64_C(0x8002d9bfffffffff));
    CHECK(fixes_pointer(&entry, &target, image_base - 1, &word) == HAUKLIVO_FAR_FROM_IMAGE && word == kept);

    /* Nothing for an imported symbol, however far, also where the section is too short. */
    target.flags = HAUKLIVO_IMPORTED;
    entry.offset = 4;
    CHECK(fixes_pointer(&entry, &target, 0, &word) == 0 && word == kept);

    /* A pointer of another type does not count from the image base. */
    const struct hauklivo_reloc plain = {.type = HAUKLIVO_UNSIGNED, .size = 8, .diversity = 7, .key = 3};
    target.flags = 0;
    CHECK(fixes_pointer(&plain, &target, image_base, &word) == 0 && word == image_base + 0x10 + UINT32_MAX);
}

static void refused_pointers(void)
{
    const struct hauklivo_reloc entry = {.offset = 4, .type = HAUKLIVO_AUTHENTICATED_POINTER, .size = 8};
    const struct hauklivo_resolved near = {.address = image_base}, far = {.address = image_base - 1};
    const struct hauklivo_resolved odd = {.flags = 0x200};
    struct hauklivo_reloc section = entry, other = entry;
    section.target = HAUKLIVO_SECTION_TARGET;
    other.type = 12;

    /* In this order: 11, 9, 5, 10, 16, 3. */
    refused_fixing(HAUKLIVO_FLAGS, UINT64_MAX, &entry, 24, &odd, 48, 24);
    refused_fixing(HAUKLIVO_OVERFLOW, UINT64_MAX, &other, 24, &far, 48, 24);
    refused_fixing(HAUKLIVO_UNSUPPORTED, 0, &other, 24, &far, 48, 24);
    refused_fixing(HAUKLIVO_NEEDS_SYMBOL, 0, &section, 24, &far, 48, 24);
    refused_fixing(HAUKLIVO_FAR_FROM_IMAGE, 0, &entry, 24, &far, 48, 24);
    refused_fixing(HAUKLIVO_BOUNDS, 0, &entry, 24, &near, 48, 24);
}

static void stub_and_thunk(void)
{
    uint8_t bytes[13];
    uint8_t reaches = UNTOUCHED;

    memset(bytes, FILL, sizeof bytes);
    CHECK(hauklivo_write_stub(bytes, 11, 0x1000, 0x2010, &reaches) == HAUKLIVO_BOUNDS);
    CHECK(hauklivo_write_thunk(bytes, 11, 0x1000, 0x2014) == HAUKLIVO_BOUNDS);
    CHECK(filled(bytes, sizeof bytes) && reaches == UNTOUCHED);

    CHECK(hauklivo_write_stub(bytes, sizeof bytes, 0x1000, 0x2010, &reaches) == HAUKLIVO_DONE);
    CHECK(reaches == 1);
    CHECK(word_at(bytes, 0) == 0xb0000010); /* adrp x16, 1 page */
    CHECK(word_at(bytes, 4) == 0xf9400a10); /* ldr x16, [x16, #16] */
    CHECK(word_at(bytes, 8) == 0xd61f0200); /* br x16 */
    CHECK(bytes[12] == FILL);
    CHECK(hauklivo_write_stub(bytes, 12, 0, UINT64_C(1) << 32, &reaches) == HAUKLIVO_DONE);
    CHECK(reaches == 0);

    CHECK(hauklivo_write_thunk(bytes, sizeof bytes, 0x1000, 0x2014) == HAUKLIVO_DONE);
    CHECK(word_at(bytes, 0) == 0xb0000010);
    CHECK(word_at(bytes, 4) == 0x91005210); /* add x16, x16, #20 */
    CHECK(word_at(bytes, 8) == 0xd61f0200);
    CHECK(bytes[12] == FILL);
}

/* A run that must answer `number` and leave image and tally. */
static void refused_working(uint8_t number, const struct hauklivo_hint_record *hints, size_t hints_len,
                            const struct hauklivo_reloc *entries, size_t entries_len)
{
    uint8_t image[8];
    struct hauklivo_tally tally;
    memset(image, FILL, sizeof image);
    memset(&tally, FILL, sizeof tally);
    CHECK(hauklivo_apply_hints(image, sizeof image, hints, hints_len, entries, entries_len, &tally) == number);
    CHECK(filled(image, sizeof image));
    CHECK(filled(&tally, sizeof tally));
}

static void hints(void)
{
    const struct hauklivo_reloc entries[2] = {
        {.type = HAUKLIVO_PAGE21, .size = 4, .is_pcrel = 1, .target = 5},
        {.offset = 4, .type = HAUKLIVO_PAGEOFF12, .size = 4, .target = 5},
    };
    const struct hauklivo_hint_insn first = {0, 0, 0x1000}, second = {4, 1, 0x1004}, past = {5, 1, 0x1004};
    const struct hauklivo_hint_insn absent = {4, 2, 0x1004};
    const struct hauklivo_hint_record list[2] = {
        {.kind = HAUKLIVO_ADRP_ADD, .words = 2, .length = 8, .places = {first, second}},
        {.kind = 9, .words = 2},
    };
    uint8_t image[9];
    struct hauklivo_tally tally;

    /* adrp x0, 0; add x0, x0, #3 becomes adr x0, 3; nop. A hint of no kind is skipped. */
    memset(image, FILL, sizeof image);
    memset(&tally, FILL, sizeof tally);
    put_word(image, 0, 0x90000000);
    put_word(image, 4, 0x91000c00);
    CHECK(hauklivo_apply_hints(image, sizeof image, list, sizeof list, entries, sizeof entries, &tally)
          == HAUKLIVO_DONE);
    CHECK(word_at(image, 0) == 0x70000000 && word_at(image, 4) == 0xd503201f && image[8] == FILL);
    CHECK(tally.rewritten == 1 && tally.skipped == 1 && tally.declined == 0 && tally.turned_down == 0);

    /* Again: the first word is no ADRP any more. The counts are those of this run alone. */
    CHECK(hauklivo_apply_hints(image, sizeof image, list, 64, entries, sizeof entries, &tally) == HAUKLIVO_DONE);
    CHECK(word_at(image, 0) == 0x70000000 && word_at(image, 4) == 0xd503201f);
    CHECK(tally.rewritten == 0 && tally.skipped == 0 && tally.declined == 1 && tally.turned_down == 0);

    /* adrp x1, 0; str s5, [x1, #0x29d0] on the last page: the sum passes 2^64 - 1, and the words stay. */
    struct hauklivo_hint_record last = {.kind = HAUKLIVO_ADRP_LDR, .words = 2, .length = 8, .places = {first, second}};
    last.places[0].address = UINT64_C(0xfffffffffffff000);
    last.places[1].address = UINT64_C(0xfffffffffffff004);
    put_word(image, 0, 0x90000001);
    put_word(image, 4, 0xbd29d025);
    CHECK(hauklivo_apply_hints(image, sizeof image, &last, 64, entries, sizeof entries, &tally) == HAUKLIVO_DONE);
    CHECK(word_at(image, 0) == 0x90000001 && word_at(image, 4) == 0xbd29d025);
    CHECK(tally.rewritten == 0 && tally.skipped == 0 && tally.declined == 0 && tally.turned_down == 1);

    /* Empty lists succeed, and a tally may be uninitialised, also one that a refused call was lent. */
    struct hauklivo_tally fresh;
    CHECK(hauklivo_apply_hints(image, 0, list, 7, entries, 0, &fresh) == HAUKLIVO_LENGTHS);
    CHECK(hauklivo_apply_hints(image, 0, list, 0, entries, 0, &fresh) == HAUKLIVO_DONE);
    CHECK(fresh.rewritten == 0 && fresh.skipped == 0 && fresh.declined == 0 && fresh.turned_down == 0);

    struct hauklivo_hint_record far = list[0], wide = list[0], third = list[0];
    far.start = 1;
    wide.places[1] = past;
    third.places[1] = absent;
    refused_working(HAUKLIVO_LENGTHS, list, 7, entries, sizeof entries);
    refused_working(HAUKLIVO_LENGTHS, list, 64, entries, 23);
    refused_working(HAUKLIVO_BOUNDS, &far, 64, entries, sizeof entries);
    refused_working(HAUKLIVO_BOUNDS, &wide, 64, entries, sizeof entries);
    refused_working(HAUKLIVO_NO_ENTRY, &third, 64, entries, sizeof entries);
}

static void lister(void)
{
    static const char text[] = "00000000 90000000 adrp\n00000004 91000400 add\n"
                               "00000008 f9400001 load 8\n0000000c d503201f other\n";
    static uint8_t most[16388];
    uint8_t words[16];
    uint8_t out[4 * HAUKLIVO_LINE];
    size_t count = UNTOUCHED;

    put_word(words, 0, 0x90000000);
    put_word(words, 4, 0x91000400);
    put_word(words, 8, 0xf9400001);
    put_word(words, 12, 0xd503201f);
    memset(out, FILL, sizeof out);
    CHECK(hauklivo_list(words, 15, out, sizeof out, &count) == HAUKLIVO_LENGTHS);
    CHECK(hauklivo_list(words, 16, out, sizeof out - 1, &count) == HAUKLIVO_SLOTS);
    CHECK(hauklivo_list(most, sizeof most, out, sizeof out, &count) == HAUKLIVO_SLOTS);
    CHECK(filled(out, sizeof out) && count == UNTOUCHED);

    CHECK(hauklivo_list(words, 16, out, sizeof out, &count) == HAUKLIVO_DONE);
    CHECK(count == sizeof text - 1 && memcmp(out, text, count) == 0);
    CHECK(filled(out + count, sizeof out - count));
    CHECK(hauklivo_list(words, 0, out, 0, &count) == HAUKLIVO_DONE);
    CHECK(count == 0);
}

/* The most values of a row, or bytes of a payload, here. */
enum { MOST = 64 };

/* A payload that must be read as `row`; slots after it stay. */
static void reads(const uint8_t *payload, size_t len, const uint64_t *row, size_t row_count)
{
    uint64_t slots[MOST];
    size_t count = UNTOUCHED;
    memset(slots, FILL, sizeof slots);
    CHECK(hauklivo_read_hints(payload, len, slots, MOST, &count) == HAUKLIVO_DONE);
    CHECK(count == row_count && memcmp(slots, row, sizeof *row * row_count) == 0);
    CHECK(filled(slots + row_count, sizeof *slots * (MOST - row_count)));
}

/* A payload that must be refused by `number`, with slots and count left. */
static void refused_payload(uint8_t number, const uint8_t *payload, size_t len, size_t slots_count)
{
    uint64_t slots[MOST];
    size_t count = UNTOUCHED;
    memset(slots, FILL, sizeof slots);
    CHECK(hauklivo_read_hints(payload, len, slots, slots_count, &count) == number);
    CHECK(filled(slots, sizeof slots) && count == UNTOUCHED);
}

/* A row that must be written as `payload`, bytes after it left, and that is read back from it. */
static void writes(const uint64_t *row, size_t row_count, const uint8_t *payload, size_t len)
{
    uint8_t out[MOST];
    size_t count = UNTOUCHED;
    memset(out, FILL, sizeof out);
    CHECK(hauklivo_write_hints(row, row_count, out, HAUKLIVO_SPELLING * row_count, &count) == HAUKLIVO_DONE);
    CHECK(count == len && memcmp(out, payload, len) == 0);
    CHECK(filled(out + len, sizeof out - len));
    reads(out, len, row, row_count);
}

/* A row that must be refused by `number`, with bytes and count left. */
static void refused_row(uint8_t number, const uint64_t *row, size_t row_count, size_t out_len)
{
    uint8_t out[MOST];
    size_t count = UNTOUCHED;
    memset(out, FILL, sizeof out);
    CHECK(hauklivo_write_hints(row, row_count, out, out_len, &count) == number);
    CHECK(filled(out, sizeof out) && count == UNTOUCHED);
}

#define READS(payload, row) reads(payload, sizeof payload, row, sizeof row / sizeof *row)

static void payloads(void)
{
    const uint64_t add[4] = {7, 2, 0, 4}, counts[4] = {7, 0, 7, 0}, above[5] = {9, 0, 300, 1, 0};
    const uint64_t largest[3] = {7, 1, UINT64_MAX};
    const uint8_t plain[4] = {7, 2, 0, 4}, none[4] = {7, 0, 7, 0}, kinds[6] = {9, 0, 0xac, 2, 1, 0};
    const uint8_t most[12] = {7, 1, 255, 255, 255, 255, 255, 255, 255, 255, 255, 1};

    /* Kinds, counts and addresses; neither a count of 0 nor an address of 0 closes the list. */
    READS(plain, add);
    READS(none, counts);
    READS(kinds, above);
    READS(most, largest);
    reads(plain, 0, add, 0);

    /* Kind 0 closes it, in any spelling. */
    const uint8_t closed[7] = {7, 2, 0, 4, 0, 0, 0}, long_close[7] = {7, 2, 0, 4, 0x80, 0, 0};
    READS(closed, add);
    READS(long_close, add);

    /* Spellings that are longer than they need be: of every value, and 0 by 11 and by 41 bytes. */
    const uint8_t longer[9] = {0x87, 0, 0x82, 0x80, 0, 0x80, 0, 0x84, 0};
    uint8_t zero[41] = {0};
    READS(longer, add);
    memset(zero, 0x80, 10);
    reads(zero, 11, add, 0);
    memset(zero, 0x80, 40);
    reads(zero, 41, add, 0);
}

static void refused_payloads(void)
{
    const uint8_t plain[4] = {7, 2, 0, 4}, open[2] = {0x80, 0x80};
    const uint8_t most[12] = {7, 1, 255, 255, 255, 255, 255, 255, 255, 255, 255, 1};
    const uint8_t too_large[12] = {7, 1, 255, 255, 255, 255, 255, 255, 255, 255, 255, 2};
    const uint8_t many[12] = {7, 255, 255, 255, 255, 255, 255, 255, 255, 255, 1, 0};

    /* Values and hints that are cut off, a value of 2^64 and more, and a count of 2^64 - 1. */
    for (size_t len = 1; len < 4; len++)
        refused_payload(HAUKLIVO_MALFORMED, plain, len, MOST);
    refused_payload(HAUKLIVO_MALFORMED, open, 1, MOST);
    refused_payload(HAUKLIVO_MALFORMED, open, 2, MOST);
    refused_payload(HAUKLIVO_MALFORMED, most, 11, MOST);
    refused_payload(HAUKLIVO_MALFORMED, too_large, 12, MOST);
    refused_payload(HAUKLIVO_MALFORMED, many, 12, MOST);

    /* After the close no value is read. */
    const uint8_t trailing[2] = {0, 0x80}, late[7] = {7, 2, 0, 4, 0, 0, 1};
    refused_payload(HAUKLIVO_TRAILING, trailing, 2, MOST);
    refused_payload(HAUKLIVO_TRAILING, late, 7, MOST);

    /* A slot for each byte is enough; whether there are as many is looked at first. */
    refused_payload(HAUKLIVO_SLOTS, plain, 4, 3);
    refused_payload(HAUKLIVO_SLOTS, plain, 3, 2);
    refused_payload(HAUKLIVO_MALFORMED, plain, 3, 3);
    refused_payload(HAUKLIVO_SLOTS, trailing, 2, 1);
    refused_payload(HAUKLIVO_TRAILING, trailing, 2, 2);
}

static void rows(void)
{
    const uint64_t add[4] = {7, 2, 0, 4}, values[5] = {128, 3, 127, 16383, 16384};
    const uint64_t large[4] = {7, 2, UINT64_C(1) << 63, UINT64_MAX};
    const uint8_t plain[4] = {7, 2, 0, 4}, shortest[9] = {128, 1, 3, 127, 255, 127, 128, 128, 1};
    uint8_t longest[22] = {7, 2};
    memset(longest + 2, 128, 9);
    memset(longest + 12, 255, 9);
    longest[11] = longest[21] = 1;

    /* The shortest spelling of each value, and no zero at the end. */
    writes(add, 4, plain, 4);
    writes(add, 0, plain, 0);
    writes(values, 5, shortest, 9);
    writes(large, 4, longest, 22);

    /* Rows that end within a hint, the last by a count of 2^64 - 1, and those with a kind 0. */
    const uint64_t many[4] = {7, UINT64_MAX, 0, 4}, closed[5] = {7, 2, 0, 4, 0}, zero[2] = {0, 0};
    refused_row(HAUKLIVO_LENGTHS, add, 1, MOST);
    refused_row(HAUKLIVO_LENGTHS, add, 2, MOST);
    refused_row(HAUKLIVO_LENGTHS, add, 3, MOST);
    refused_row(HAUKLIVO_LENGTHS, many, 4, MOST);
    refused_row(HAUKLIVO_LENGTHS, closed, 5, MOST);
    refused_row(HAUKLIVO_LENGTHS, zero, 2, MOST);

    /* Ten bytes for each value, which is looked at last. */
    refused_row(HAUKLIVO_SLOTS, add, 4, 4 * HAUKLIVO_SPELLING - 1);
    refused_row(HAUKLIVO_LENGTHS, add, 3, 0);

    /* Empty lists succeed, and a count may be uninitialised. */
    size_t fresh, again;
    uint64_t slot = 0;
    uint8_t byte = FILL;
    CHECK(hauklivo_read_hints(&byte, 0, &slot, 0, &fresh) == HAUKLIVO_DONE && fresh == 0);
    CHECK(hauklivo_write_hints(&slot, 0, &byte, 0, &again) == HAUKLIVO_DONE && again == 0);
}

static void classes(void)
{
    int count = 0;

    CHECK(hauklivo_load_store_class(0x39000000) == 8 + HAUKLIVO_CLASS_STORE);  /* strb */
    CHECK(hauklivo_load_store_class(0xb9800000) == 32 + HAUKLIVO_CLASS_LDRSW); /* ldrsw */
    CHECK(hauklivo_load_store_class(0xf9400001) == 64);                        /* ldr x1, [x0] */
    uint8_t q = hauklivo_load_store_class(0x3d800421);                         /* str q1, [x1, #16] */
    CHECK(HAUKLIVO_CLASS_BYTES(q) == 16 && q % 8 == HAUKLIVO_CLASS_STORE + HAUKLIVO_CLASS_VECTOR);
    CHECK(hauklivo_load_store_class(0xf9800000) == 0); /* prfm */
    CHECK(hauklivo_load_store_class(0xd503201f) == 0); /* nop */

    /* Bits 31 to 22 decide, and 23 of their values are a load or store. */
    for (uint32_t high = 0; high < 1024; high++) {
        uint8_t entry = hauklivo_load_store_class(high << 22);
        CHECK(hauklivo_load_store_class(high << 22 | 0x3fffff) == entry);
        count += entry != 0;
    }
    CHECK(count == 23);
}

#define LAST_PAGE UINT64_C(0xfffffffffffff000)

/* A hint of the words, the first at an address, and of a reference to a GOT slot where its kind asks for one: it must
 * decline and leave them. */
static void declines(uint8_t kind, uint8_t words, uint64_t address, const uint32_t code[3])
{
    const int got = kind == HAUKLIVO_ADRP_LDR_GOT_LDR;
    const struct hauklivo_reloc entries[2] = {
        {.type = got ? HAUKLIVO_GOT_LOAD_PAGE21 : HAUKLIVO_PAGE21, .size = 4, .is_pcrel = 1, .target = 5},
        {.offset = 4, .type = got ? HAUKLIVO_GOT_LOAD_PAGEOFF12 : HAUKLIVO_PAGEOFF12, .size = 4, .target = 5},
    };
    const struct hauklivo_hint_record hint = {
        .kind = kind,
        .words = words,
        .length = 4 * words,
        .places = {{0, 0, address}, {4, 1, address + 4}, {8, HAUKLIVO_WITHOUT_ENTRY, address + 8}},
    };
    uint8_t image[12], before[12];
    struct hauklivo_tally tally;
    for (int i = 0; i < words; i++) {
        put_word(image, 4 * i, code[i]);
    }
    memcpy(before, image, hint.length);
    CHECK(hauklivo_apply_hints(image, hint.length, &hint, 64, entries, sizeof entries, &tally) == HAUKLIVO_DONE);
    CHECK(memcmp(image, before, hint.length) == 0);
    CHECK(tally.rewritten == 0 && tally.skipped == 0 && tally.declined == 1 && tally.turned_down == 0);
}

/* A word of a vector register that the manual leaves unallocated is no load, and a hint that holds it
 * declines before any sum. A page offset is scaled by its size. */
static void unallocated(uint32_t word, uint8_t size)
{
    const struct hauklivo_mach_rel record[1] = {{0, 0x9c000005}};
    const struct hauklivo_reloc entry = {.type = HAUKLIVO_PAGEOFF12, .size = 4};
    const struct hauklivo_resolved odd = {.address = 0x1001, .flags = HAUKLIVO_HAS_ADDRESS};
    struct hauklivo_report report;
    uint8_t bytes[4], out[HAUKLIVO_LINE];
    char text[HAUKLIVO_LINE + 1];
    size_t count;

    put_word(bytes, 0, word);
    CHECK(hauklivo_load_store_class(word) == 0);
    snprintf(text, sizeof text, "00000000 %08x other\n", (unsigned)word);
    CHECK(hauklivo_list(bytes, 4, out, sizeof out, &count) == HAUKLIVO_DONE);
    CHECK(count == strlen(text) && memcmp(out, text, count) == 0);
    refused_reading(HAUKLIVO_UNFIT, bytes, 4, record, 8, 24);
    /* From x2; then from x1, with the greatest offset, in the last page. */
    declines(HAUKLIVO_ADRP_ADD_LDR, 3, 0x1000, (const uint32_t[3]){0x90000001, 0x91004022, word | 0x43});
    declines(HAUKLIVO_ADRP_LDR, 2, LAST_PAGE, (const uint32_t[3]){0x90000001, word | 0x3ffc20});
    CHECK(hauklivo_apply_reloc_alloc(bytes, 4, 0x1000, 0, 0, &entry, 24, &odd, 48, &report, 24, &count)
          == HAUKLIVO_DONE);
    CHECK(count == 1 && report.kind == HAUKLIVO_REPORT_ALIGNMENT && report.size == size && word_at(bytes, 0) == word);
}

/* A hint in which number 31 is the zero register in one word and the stack pointer in the next declines before any sum, and
 * so does one with an ADD to the stack pointer. */
static void register_31(void)
{
    /* adrp xzr; add x0, sp, #16, and adrp x0; add sp, x0, #16 */
    declines(HAUKLIVO_ADRP_ADD, 2, 0x1000, (const uint32_t[3]){0x9000001f, 0x910043e0});
    declines(HAUKLIVO_ADRP_ADD, 2, 0x1000, (const uint32_t[3]){0x90000000, 0x9100401f});
    /* adrp xzr; ldr x1, [sp, #32760] in the last page, and adrp x0; ldr xzr, [x0, #32760]; ldr x1, [sp] */
    declines(HAUKLIVO_ADRP_LDR, 2, LAST_PAGE, (const uint32_t[3]){0x9000001f, 0xf97fffe1});
    declines(HAUKLIVO_ADRP_LDR_GOT_LDR, 3, LAST_PAGE, (const uint32_t[3]){0x90000000, 0xf97ffc1f, 0xf94003e1});
}

/* A hint of an object on words of its own, the first at an address; then the rule, how many words it writes, and the words
 * after it. */
struct listed_row {
    uint8_t kind, words, rule, changed;
    uint32_t object;
    uint64_t address;
    uint32_t code[3], after[3];
};

#define NOP UINT32_C(0xd503201f)

/* Every rule. The objects fall; in 7 a hint of kind 1 is not the last, and in 40 one that is skipped. */
static const struct listed_row listed_rows[] = {
    /* adrp x0; ldr x1, [x0, #8] */
    {2, 2, HAUKLIVO_RULE_LITERAL, 2, 40, 0x1000, {0x90000000, 0xf9400401}, {NOP, 0x58000021}},
    /* three words, where the kind has two; no such kind */
    {1, 3, HAUKLIVO_RULE_SKIPPED, 0, 40, 0x1000, {0x90000000, 0x90000000, NOP}, {0x90000000, 0x90000000, NOP}},
    {9, 2, HAUKLIVO_RULE_SKIPPED, 0, 40, 0x1000, {0x90000000, 0x91000c00}, {0x90000000, 0x91000c00}},
    /* adrp x0; add x0, x0, #0, out of reach */
    {7, 2, HAUKLIVO_RULE_DECLINED, 0, 40, 0x1000, {0x90008000, 0x91000000}, {0x90008000, 0x91000000}},
    /* adrp x1; str s5, [x1, #0x29d0] */
    {2, 2, HAUKLIVO_RULE_TURNED_DOWN, 0, 40, LAST_PAGE, {0x90000001, 0xbd29d025}, {0x90000001, 0xbd29d025}},
    /* adrp x0; adrp x0, of one page */
    {1, 2, HAUKLIVO_RULE_SECOND_ADRP, 1, 7, 0x1000, {0x90000000, 0x90000000}, {0x90000000, NOP}},
    /* adrp x1; add x1, x1, #4; ldr d0, [x1, #16] */
    {4, 3, HAUKLIVO_RULE_LITERAL, 3, 7, 0x100000000, {0xf00001c1, 0x91001021, 0xfd400820}, {NOP, NOP, 0x5c1d8060}},
    /* adrp x0; add x0, x0, #3 */
    {7, 2, HAUKLIVO_RULE_ADR, 2, 7, 0x1000, {0x90000000, 0x91000c00}, {0x70000000, NOP}},
    /* adrp x1; add x2, x1, #4; str x5, [x2]: the store is written with the offset that it has */
    {5, 3, HAUKLIVO_RULE_ADR, 3, 7, 0x100000000, {0x90000241, 0x91001022, 0xf9000045}, {0x10240022, NOP, 0xf9000045}},
    /* adrp x0; add x0, x0, #16; str x1, [x0] */
    {5, 3, HAUKLIVO_RULE_FOLD, 2, 0, 0x1000, {0x90001000, 0x91004000, 0xf9000001}, {0x90001000, NOP, 0xf9000801}},
    /* adrp x0; ldr x2, [x0, #8]; ldrsb w2, [x2] */
    {4, 3, HAUKLIVO_RULE_GOT_SLOT, 2, 0, 0x100000000, {0xd0000180, 0xf9400402, 0x39c00042}, {NOP, 0x58190022, 0x39c00042}},
};

/* The positions of these in the order of work. */
enum { LISTED = sizeof listed_rows / sizeof *listed_rows };
static const uint32_t listed_order[LISTED] = {9, 10, 6, 7, 8, 5, 0, 2, 3, 4, 1};

/* The halves of a reference to symbol 5, and those of one to its GOT slot. */
static const struct hauklivo_reloc listed_entries[4] = {
    {.type = HAUKLIVO_PAGE21, .size = 4, .is_pcrel = 1, .target = 5},
    {.type = HAUKLIVO_PAGEOFF12, .size = 4, .target = 5},
    {.type = HAUKLIVO_GOT_LOAD_PAGE21, .size = 4, .is_pcrel = 1, .target = 5},
    {.type = HAUKLIVO_GOT_LOAD_PAGEOFF12, .size = 4, .target = 5},
};

/* The hints of the rows, each on 12 bytes of the image; the image before and after. */
static void lend_listed(struct hauklivo_hint_record *hints, uint8_t *before, uint8_t *after)
{
    for (uint32_t i = 0; i < LISTED; i++) {
        const struct listed_row *row = &listed_rows[i];
        const uint32_t first = row->kind == 4 ? 2 : 0, second = row->kind == 1 ? 0 : first + 1;
        hints[i] = (struct hauklivo_hint_record){
            .kind = row->kind,
            .words = row->words,
            .object = row->object,
            .start = 12 * i,
            .length = 12,
            .places = {{0, first, row->address},
                       {4, second, row->address + 4},
                       {8, HAUKLIVO_WITHOUT_ENTRY, row->address + 8}},
        };
        for (uint32_t k = 0; k < 3; k++) {
            put_word(before, 12 * i + 4 * k, row->code[k]);
            put_word(after, 12 * i + 4 * k, row->after[k]);
        }
    }
}

/* Each hint has its record at its turn, and image and tally are those of the plain run. */
static void listed(void)
{
    struct hauklivo_hint_record hints[LISTED];
    struct hauklivo_rule_record records[LISTED + 1];
    struct hauklivo_tally tally, plain;
    uint8_t image[12 * LISTED], other[12 * LISTED], after[12 * LISTED];

    lend_listed(hints, image, after);
    memcpy(other, image, sizeof image);
    memset(records, FILL, sizeof records);
    CHECK(hauklivo_apply_hints_listed(image, sizeof image, hints, sizeof hints, listed_entries, sizeof listed_entries,
                                      records, sizeof records - 3, &tally)
          == HAUKLIVO_DONE);
    CHECK(memcmp(image, after, sizeof image) == 0);
    for (uint32_t i = 0; i < LISTED; i++) {
        const struct listed_row *row = &listed_rows[listed_order[i]];
        const struct hauklivo_rule_record due = {
            .position = listed_order[i], .object = row->object, .rule = row->rule, .changed = row->changed};
        CHECK(memcmp(&records[i], &due, sizeof due) == 0);
    }
    CHECK(filled(&records[LISTED], sizeof *records));
    CHECK(tally.rewritten == 7 && tally.skipped == 2 && tally.declined == 1 && tally.turned_down == 1);

    CHECK(hauklivo_apply_hints(other, sizeof other, hints, sizeof hints, listed_entries, sizeof listed_entries, &plain)
          == HAUKLIVO_DONE);
    CHECK(memcmp(image, other, sizeof image) == 0 && memcmp(&tally, &plain, sizeof tally) == 0);
}

/* A listed run of hints that must answer `number` and leave image, records and tally. */
static void refused_listed(uint8_t number, const struct hauklivo_hint_record *hints, size_t hints_len, size_t entries_len,
                           size_t records_len)
{
    uint8_t image[12 * LISTED], records[16 * LISTED];
    struct hauklivo_tally tally;
    memset(image, FILL, sizeof image);
    memset(records, FILL, sizeof records);
    memset(&tally, FILL, sizeof tally);
    CHECK(hauklivo_apply_hints_listed(image, sizeof image, hints, hints_len, listed_entries, entries_len, records,
                                      records_len, &tally)
          == number);
    CHECK(filled(image, sizeof image) && filled(records, sizeof records) && filled(&tally, sizeof tally));
}

static void refused_lists(void)
{
    struct hauklivo_hint_record hints[LISTED];
    uint8_t before[12 * LISTED], after[12 * LISTED];
    const size_t all = sizeof hints, entries = sizeof listed_entries, room = 16 * LISTED;

    lend_listed(hints, before, after);
    refused_listed(HAUKLIVO_LENGTHS, hints, all - 1, entries, 0); /* not 2 */
    refused_listed(HAUKLIVO_LENGTHS, hints, all, entries - 1, 0);
    refused_listed(HAUKLIVO_SLOTS, hints, all, entries, room - 1);
    refused_listed(HAUKLIVO_SLOTS, hints, all, 0, 0); /* not 12 */
    refused_listed(HAUKLIVO_NO_ENTRY, hints, all, 24, room);
    hints[LISTED - 1].length = 13;
    refused_listed(HAUKLIVO_BOUNDS, hints, all, entries, room);
    refused_listed(HAUKLIVO_SLOTS, hints, all, entries, room - 1); /* not 3 */
    hints[LISTED - 1].length = 11;
    refused_listed(HAUKLIVO_BOUNDS, hints, all, entries, room);

    /* No hints need no room, and nothing is written there. */
    struct hauklivo_tally fresh;
    uint8_t byte = FILL;
    CHECK(hauklivo_apply_hints_listed(before, 0, hints, 0, listed_entries, 0, &byte, 0, &fresh) == HAUKLIVO_DONE);
    CHECK(hauklivo_apply_hints_listed(before, 0, hints, 0, listed_entries, 0, &byte, 1, &fresh) == HAUKLIVO_DONE);
    CHECK(byte == FILL && fresh.rewritten + fresh.skipped + fresh.declined + fresh.turned_down == 0);
}

static void version(void)
{
    CHECK(hauklivo_version() == HAUKLIVO_VERSION);
    CHECK(hauklivo_version_5() == HAUKLIVO_VERSION);
}

int main(void)
{
    version();
    reader();
    reader_x86_64();
    refused_x86_64();
    fixup();
    reader_of_pointers();
    fixup_of_pointers();
    refused_pointers();
    stub_and_thunk();
    hints();
    payloads();
    refused_payloads();
    rows();
    lister();
    classes();
    unallocated(0x7d800000, 2);
    unallocated(0x7dc00000, 2);
    unallocated(0xbd800000, 4);
    register_31();
    listed();
    refused_lists();
    if (failures == 0)
        puts("the C calls answer as they should");
    return failures != 0;
}
