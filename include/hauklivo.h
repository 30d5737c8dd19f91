/*
 * Hauklivo: the calls that a Mach-O linker makes for arm64, and one for x86_64, which reads its
 * relocation records.
 *
 * For every input whose pieces don't overlap, a call touches nothing but what it is lent. A call that
 * is lent something returns 0 or the number of a refusal (enum hauklivo_number). A refused call changes
 * nothing that it was lent: no byte, no slot, no count, no tally. The calls that are lent nothing
 * (hauklivo_version, hauklivo_version_5, hauklivo_load_store_class) refuse nothing, and what they return
 * is no such number.
 *
 * Pieces that don't overlap: what a call may write (a section, an image, slots, rule records, bytes, a
 * count, a tally) may not share a byte with anything else that is lent to the same call. Nothing is
 * promised of pieces that do: a fix-up whose section contains its own entries checks them, changes them,
 * and then works them as they are now, which faults or writes elsewhere.
 *
 * Lists are lent as bytes: a pointer and a length in bytes. Each list holds records of one fixed
 * size with no header, in the layouts of the structs below, little-endian. Four lists are lent as
 * 64-bit values, and their lengths count those: `sections` of hauklivo_read_relocs and of
 * hauklivo_read_relocs_x86_64, `slots` of hauklivo_read_hints and `row` of hauklivo_write_hints. No
 * pointer may be null, not even one of an empty list. Lists of records need no alignment, and a
 * payload needs none; a list of 64-bit values needs that of uint64_t, a tally that of uint32_t, a
 * count that of size_t.
 *
 * An entry (struct hauklivo_reloc) does not say which machine it is of. The fix-up
 * (hauklivo_apply_reloc_alloc) and the hint run (hauklivo_apply_hints, hauklivo_apply_hints_listed) take
 * every entry as arm64's. One that hauklivo_read_relocs_x86_64 filled is not: to lend it to them is the
 * caller's mistake, for which there is no number. They may well accept it, and the bytes that come of it
 * mean nothing.
 */
#ifndef HAUKLIVO_H
#define HAUKLIVO_H

#include <stddef.h>
#include <stdint.h>

#ifdef __cplusplus
extern "C" {
#define HAUKLIVO_ASSERT static_assert
#else
#define HAUKLIVO_ASSERT _Static_assert
#endif

/* The version of these calls. It rises by one where a call, a record or a number that was there
 * changes, and where a call answers otherwise or leaves other bytes. A call that is added leaves it,
 * also where it returns a number that is added with it: a program that makes the call does not link
 * with a library that was made before it, and any other program links with both and gets the same
 * answers. */
#define HAUKLIVO_VERSION 5

/* The version of the library that is linked: HAUKLIVO_VERSION, unless it and this header are of
 * different versions. */
uint32_t hauklivo_version(void);

/* The same. Only a library of this version has the name: a program that calls it links with no other. */
uint32_t hauklivo_version_5(void);

/* What a call that is lent something returns. */
enum hauklivo_number {
    /* The call did its work. */
    HAUKLIVO_DONE = 0,
    /* A list's length is not whole records, a list has more than 2^32 - 1 records, or two lists
     * disagree (targets are not one for each entry); a payload has more than 2^32 - 1 bytes; a row
     * has more than 2^32 - 1 values, ends within a hint, or has a kind 0. */
    HAUKLIVO_LENGTHS = 1,
    /* The slots have fewer than 24 bytes for each input record; of a listed hint run, fewer than 16
     * bytes of room for each hint; of a listing, more than 16,384 bytes of words, or fewer than 27
     * bytes of room for each word; of a payload, fewer slots than bytes; of a row, fewer than 10 bytes
     * of room for each value. */
    HAUKLIVO_SLOTS = 2,
    /* A place is past the bytes that it reads or writes, a hint's word is past its part, a hint's
     * part is past the image, or fewer than 12 bytes are lent for a stub or thunk entry. */
    HAUKLIVO_BOUNDS = 3,
    /* An ADDEND record is the last record. */
    HAUKLIVO_LONE_ADDEND = 4,
    /* A type, or a record's form, is not supported. */
    HAUKLIVO_UNSUPPORTED = 5,
    /* A word is unfit for its record. */
    HAUKLIVO_UNFIT = 6,
    /* A record names a section that is not there. */
    HAUKLIVO_NO_SECTION = 7,
    /* A SUBTRACTOR entry is the last entry. */
    HAUKLIVO_LONE_SUBTRACTOR = 8,
    /* Base plus offset passes 2^64 - 1. */
    HAUKLIVO_OVERFLOW = 9,
    /* A section stands where a symbol is needed. */
    HAUKLIVO_NEEDS_SYMBOL = 10,
    /* A target has a flag of bit 9 or above, is both probe and is-enabled, or its last four bytes
     * are not zero. */
    HAUKLIVO_FLAGS = 11,
    /* A hint names an entry that is not there. */
    HAUKLIVO_NO_ENTRY = 12,
    /* A payload ends within a value or within a hint, or a value of it is 2^64 or more. */
    HAUKLIVO_MALFORMED = 13,
    /* A byte after the kind 0 that closes the list of a payload is not zero. */
    HAUKLIVO_TRAILING = 14,
    /* In the 8 bytes stored for an AUTHENTICATED_POINTER record bits 51 to 62 are not zero, or bit 63
     * is clear. */
    HAUKLIVO_NOT_AUTHENTICATED = 15,
    /* For an AUTHENTICATED_POINTER entry the target's address plus the addend less the image base,
     * modulo 2^64, is above 2^32 - 1. */
    HAUKLIVO_FAR_FROM_IMAGE = 16
};

/* Relocation types of an arm64 object, those of Apple's <mach-o/arm64/reloc.h>. */
enum hauklivo_type {
    /* A pointer. */
    HAUKLIVO_UNSIGNED = 0,
    /* What is taken from the UNSIGNED after it. */
    HAUKLIVO_SUBTRACTOR = 1,
    /* The target of B or BL. */
    HAUKLIVO_BRANCH26 = 2,
    /* The page of an ADRP, and the offset in it of an ADD, a load or a store. */
    HAUKLIVO_PAGE21 = 3,
    HAUKLIVO_PAGEOFF12 = 4,
    /* The same of a GOT slot. */
    HAUKLIVO_GOT_LOAD_PAGE21 = 5,
    HAUKLIVO_GOT_LOAD_PAGEOFF12 = 6,
    /* The distance to a GOT slot. */
    HAUKLIVO_POINTER_TO_GOT = 7,
    /* Page and offset of a thread-local variable's descriptor. */
    HAUKLIVO_TLVP_LOAD_PAGE21 = 8,
    HAUKLIVO_TLVP_LOAD_PAGEOFF12 = 9,
    /* The addend of the record after it. */
    HAUKLIVO_ADDEND = 10,
    /* A pointer of an arm64e object, which is signed before it is used. */
    HAUKLIVO_AUTHENTICATED_POINTER = 11
};

/* Relocation types of an x86_64 object, those of Apple's <mach-o/x86_64/reloc.h>. */
enum hauklivo_type_x86_64 {
    /* A pointer. */
    HAUKLIVO_X86_64_UNSIGNED = 0,
    /* A displacement, from the end of its four bytes. */
    HAUKLIVO_X86_64_SIGNED = 1,
    /* The same of a call or jump; of a short jump, from the end of its one byte. */
    HAUKLIVO_X86_64_BRANCH = 2,
    /* The displacement to a GOT slot, in a movq that loads it and anywhere else. */
    HAUKLIVO_X86_64_GOT_LOAD = 3,
    HAUKLIVO_X86_64_GOT = 4,
    /* What is taken from the UNSIGNED after it. */
    HAUKLIVO_X86_64_SUBTRACTOR = 5,
    /* A displacement, from 1, 2 or 4 bytes behind the end of its four. */
    HAUKLIVO_X86_64_SIGNED_1 = 6,
    HAUKLIVO_X86_64_SIGNED_2 = 7,
    HAUKLIVO_X86_64_SIGNED_4 = 8,
    /* The displacement to the GOT slot of a thread-local variable's descriptor, in a movq that loads
     * it. */
    HAUKLIVO_X86_64_TLV = 9
};

/* A relocation record of an object file: Apple's relocation_info. */
struct hauklivo_mach_rel {
    /* Offset of the place in the section. */
    uint32_t offset;
    /* From bit 0: index (24 bits), pc-relative (1), log2 of the size (2), extern (1), type (4).
     * The index is a symbol's number; where extern is 0, a section's ordinal, counted from 1. */
    uint32_t bits;
};
HAUKLIVO_ASSERT(sizeof(struct hauklivo_mach_rel) == 8, "a record has 8 bytes");

/* In an entry's target: the rest is a section's number, not a symbol's. */
#define HAUKLIVO_SECTION_TARGET UINT32_C(0x80000000)

/* An entry: what a record, in an arm64 object with the ADDEND record before it, comes to. */
struct hauklivo_reloc {
    /* Offset of the place in the section; after an ADDEND record that record's. */
    uint32_t offset;
    /* enum hauklivo_type, or enum hauklivo_type_x86_64 from hauklivo_read_relocs_x86_64. */
    uint8_t type;
    /* 1, 2, 4 or 8 bytes. */
    uint8_t size;
    /* 1 where the record is pc-relative, else 0. */
    uint8_t is_pcrel;
    /* 1 where the record directly before it is SUBTRACTOR, else 0. */
    uint8_t is_subtracted;
    /* A symbol's number, or HAUKLIVO_SECTION_TARGET plus a section's number, counted from 0. */
    uint32_t target;
    /* How an AUTHENTICATED_POINTER is signed: the number that goes into its signature, whether its own
     * address goes into it, too (1 or 0), and the key: IA, IB, DA and DB are 0, 1, 2 and 3. Of any other
     * type all three are zero from a reader. The fix-up looks at them for AUTHENTICATED_POINTER only, and
     * there at the low bit of address_diversity and the low two of key; the hint run never does. */
    uint16_t diversity;
    uint8_t address_diversity;
    uint8_t key;
    /* What is added to the target. */
    int64_t addend;
};
HAUKLIVO_ASSERT(sizeof(struct hauklivo_reloc) == 24, "an entry has 24 bytes");

/* Flags of a resolved target. */
enum hauklivo_flag {
    /* A library's symbol that dyld binds. Looked at for symbols only. */
    HAUKLIVO_IMPORTED = 1 << 0,
    /* In thread-local storage: an UNSIGNED pointer to it gets the distance from `tls_begin`. */
    HAUKLIVO_THREAD_LOCAL = 1 << 1,
    /* Set for every section, and for each symbol that has an address in the image. */
    HAUKLIVO_HAS_ADDRESS = 1 << 2,
    /* A load of its GOT slot can be relaxed to its address. */
    HAUKLIVO_RELAXES_GOT = 1 << 3,
    /* It has a thunk entry in reach of the place, for a branch that does not reach by itself. Looked
     * at for symbols only. */
    HAUKLIVO_HAS_THUNK = 1 << 4,
    /* A GOT load of it calls a helper. */
    HAUKLIVO_HAS_HELPER = 1 << 5,
    /* The helper is the site's own: reached by B, not BL. */
    HAUKLIVO_HELPER_OWN = 1 << 6,
    /* A DTrace probe site: the branch becomes NOP. Looked at for symbols only. */
    HAUKLIVO_PROBE = 1 << 7,
    /* A DTrace is-enabled site: the branch becomes MOVZ X0, #0. Looked at for symbols only. */
    HAUKLIVO_IS_ENABLED = 1 << 8
};

/* What the linker knows of an entry's target; one for each entry. */
struct hauklivo_resolved {
    /* Its address. */
    uint64_t address;
    /* Address of its GOT slot. */
    uint64_t got;
    /* Where a branch to it goes: its address or its stub's. */
    uint64_t branch;
    /* Address of a thunk entry in reach of the place. */
    uint64_t thunk;
    /* Address of its load helper. */
    uint64_t helper;
    /* enum hauklivo_flag. */
    uint32_t flags;
    /* Must be 0, else number 11. */
    uint32_t zero;
};
HAUKLIVO_ASSERT(sizeof(struct hauklivo_resolved) == 48, "a resolved target has 48 bytes");

/* What a report is about. */
enum hauklivo_report_kind {
    /* ADRP does not reach the target's page. The word is written all the same. */
    HAUKLIVO_REPORT_ADRP_REACH = 1,
    /* B or BL does not reach the target. The word is written all the same. */
    HAUKLIVO_REPORT_BRANCH_REACH = 2,
    /* The access size of a load or store does not divide its target. The word is left. */
    HAUKLIVO_REPORT_ALIGNMENT = 3,
    /* A relaxed page offset stands on a word other than LDR (for GOT also ADD). It is left. */
    HAUKLIVO_REPORT_NON_LDR = 4
};

/* A report of a fix-up. */
struct hauklivo_report {
    /* Number of the entry, counted from 0. */
    uint32_t entry;
    /* enum hauklivo_report_kind. */
    uint8_t kind;
    /* The access size (kind 3), else 0. */
    uint8_t size;
    /* Written as 0. */
    uint16_t zero;
    /* Address of the place, and the target (kinds 1 and 2), else 0. */
    uint64_t place;
    uint64_t target;
};
HAUKLIVO_ASSERT(sizeof(struct hauklivo_report) == 24, "a report has 24 bytes");

/* Kinds of a linker optimization hint, those of LLVM's MCLinkerOptimizationHint.h. */
enum hauklivo_hint_kind {
    /* Two ADRPs of one page into one register. */
    HAUKLIVO_ADRP_ADRP = 1,
    /* ADRP, and a load through it. */
    HAUKLIVO_ADRP_LDR = 2,
    /* ADRP, ADD, and a load through both. */
    HAUKLIVO_ADRP_ADD_LDR = 3,
    /* ADRP, the load of a GOT slot, and a load through it. */
    HAUKLIVO_ADRP_LDR_GOT_LDR = 4,
    /* ADRP, ADD, and a store through both. */
    HAUKLIVO_ADRP_ADD_STR = 5,
    /* ADRP, the load of a GOT slot, and a store through it. */
    HAUKLIVO_ADRP_LDR_GOT_STR = 6,
    /* ADRP and ADD. */
    HAUKLIVO_ADRP_ADD = 7,
    /* ADRP, and the load of a GOT slot. */
    HAUKLIVO_ADRP_LDR_GOT = 8
};

/* The entry number of a word that has none. */
#define HAUKLIVO_WITHOUT_ENTRY UINT32_C(0xffffffff)

/* Where one word of a hint stands. */
struct hauklivo_hint_insn {
    /* Offset of the word in the hint's part of the image. */
    uint32_t offset;
    /* Number of the word's entry, counted from 0, or HAUKLIVO_WITHOUT_ENTRY: 0 names the first. */
    uint32_t entry;
    /* The word's own address. */
    uint64_t address;
};
HAUKLIVO_ASSERT(sizeof(struct hauklivo_hint_insn) == 16, "a place has 16 bytes");

/* A hint. One of another kind, or with another word count than its kind has, is skipped. */
struct hauklivo_hint_record {
    /* enum hauklivo_hint_kind. */
    uint8_t kind;
    /* 2 words, or 3 for the kinds 3 to 6. */
    uint8_t words;
    /* Not looked at. */
    uint16_t ignored;
    /* Number of the object that it comes from. */
    uint32_t object;
    /* Its part of the image: the first byte, and how many. */
    uint32_t start;
    uint32_t length;
    /* A third place is not looked at where there are 2 words. */
    struct hauklivo_hint_insn places[3];
};
HAUKLIVO_ASSERT(sizeof(struct hauklivo_hint_record) == 64, "a hint has 64 bytes");

/* What became of the hints of a run. */
struct hauklivo_tally {
    /* With at least one word replaced. */
    uint32_t rewritten;
    /* Of another kind, or with another word count. */
    uint32_t skipped;
    /* Left as they were: a rule did not fit, or register 31 links two of the words or is an ADD's
     * destination. */
    uint32_t declined;
    /* Left as they were, for an address sum passed 2^64 - 1 (number 9, which no run returns). */
    uint32_t turned_down;
};
HAUKLIVO_ASSERT(sizeof(struct hauklivo_tally) == 16, "a tally has 16 bytes");

/* What a listed hint run did with a hint. */
enum hauklivo_rule {
    /* Of another kind, or with another word count: no word was written. */
    HAUKLIVO_RULE_SKIPPED = 0,
    /* No rewrite fits, or register 31 links two of the words or is an ADD's destination: none. */
    HAUKLIVO_RULE_DECLINED = 1,
    /* The second ADRP became NOP: 1 word. */
    HAUKLIVO_RULE_SECOND_ADRP = 2,
    /* The load became a literal load, and each word before it NOP: 2 words in kind 2, also where that
     * is a load of a GOT slot, 3 in the kinds 3 and 4. */
    HAUKLIVO_RULE_LITERAL = 3,
    /* The ADRP became ADR, and the ADD NOP: 2 words; in the kinds 3 and 5 the load or store got the
     * offset 0: 3 words. */
    HAUKLIVO_RULE_ADR = 4,
    /* The ADD became NOP, and its immediate went into the load or store: 2 words. */
    HAUKLIVO_RULE_FOLD = 5,
    /* The ADRP became NOP, and the second word, in the kinds 4, 6 and 8 the load of a GOT slot, a literal
     * load of it: 2 words. */
    HAUKLIVO_RULE_GOT_SLOT = 6,
    /* An address sum passed 2^64 - 1 (number 9, which no run returns): none. */
    HAUKLIVO_RULE_TURNED_DOWN = 7
};

/* What a listed hint run says of a hint. */
struct hauklivo_rule_record {
    /* The hint's position in the list, counted from 0. */
    uint32_t position;
    /* Number of the object that it comes from. */
    uint32_t object;
    /* enum hauklivo_rule. */
    uint8_t rule;
    /* Words changed: how many of its places were written, also where a new word is the old one. */
    uint8_t changed;
    /* Written as 0. */
    uint8_t zero[6];
};
HAUKLIVO_ASSERT(sizeof(struct hauklivo_rule_record) == 16, "a rule record has 16 bytes");

/*
 * Reads the relocation records of a section of an arm64 object into entries.
 *
 *   contents  the section's bytes
 *   records   struct hauklivo_mach_rel
 *   sections  the address of each section of the object; `sections_count` counts addresses, where
 *             every other length counts bytes
 *   slots     at least 24 bytes for each record; gets struct hauklivo_reloc
 *   count     gets how many entries were filled; slots after them keep their bytes. It is not read,
 *             and written only where 0 comes back: so every `count` and `reaches` below
 *
 * An AUTHENTICATED_POINTER record is supported where it is extern, of 8 bytes and not pc-relative. Of
 * the 8 bytes at its place, as a number, bits 0 to 31 are the addend, in two's complement, in the place
 * of an ADDEND record's; 32 to 47 are the diversity, 48 the address diversity, 49 and 50 the key. Up to
 * version 4 such a record was 5: a linker that makes no arm64e images turns its entry down itself.
 *
 * Numbers, in this order: 1, 2, then record by record 3 (its offset), 4, 5, 3 (the word that it must
 * fit), 6, 3 (a stored addend), 15 (a stored word that has bits 51 to 62 not zero or bit 63 clear), 7.
 */
uint8_t hauklivo_read_relocs(const uint8_t *contents, size_t contents_len, const void *records,
                             size_t records_len, const uint64_t *sections, size_t sections_count,
                             void *slots, size_t slots_len, size_t *count);

/*
 * Reads the relocation records of a section of an x86_64 object into entries, one for each record. The
 * entries are not for hauklivo_apply_reloc_alloc, hauklivo_apply_hints or hauklivo_apply_hints_listed,
 * which take them as arm64's.
 *
 *   contents  the section's bytes
 *   records   struct hauklivo_mach_rel, with types of enum hauklivo_type_x86_64
 *   sections  the address of each section of the object; `sections_count` counts addresses, where
 *             every other length counts bytes
 *   address   the address of the section that the records are of
 *   slots     at least 24 bytes for each record; gets struct hauklivo_reloc
 *   count     gets how many entries were filled, which is how many records there are; slots after
 *             them keep their bytes
 *
 * Every record's addend is the number in the 1, 4 or 8 bytes at its place, signed, plus 1, 2 or 4 by
 * its type for SIGNED_1, SIGNED_2 and SIGNED_4. A record of a section has that section's address taken
 * off; where it is pc-relative, `address`, its offset and 4 are added. Sums are modulo 2^64.
 *
 * Numbers, in this order: 1, 2, then record by record 5, 3 (its offset, and the bytes there), 7.
 */
uint8_t hauklivo_read_relocs_x86_64(const uint8_t *contents, size_t contents_len,
                                    const void *records, size_t records_len,
                                    const uint64_t *sections, size_t sections_count,
                                    uint64_t address, void *slots, size_t slots_len, size_t *count);

/*
 * Fixes up a section's bytes by its entries.
 *
 *   section     the section's bytes
 *   base        the address of its first byte
 *   tls_begin   the start of thread-local storage
 *   image_base  the address of the image, that of its mach header. Nothing but AUTHENTICATED_POINTER
 *               entries depends on it
 *   entries     struct hauklivo_reloc, of an arm64 object
 *   targets     struct hauklivo_resolved, one for each entry
 *   slots       at least 24 bytes for each entry; gets struct hauklivo_report
 *   count       gets how many reports were filled; slots after them keep their bytes
 *
 * An AUTHENTICATED_POINTER gets 8 bytes, whatever stood there: in bits 0 to 31 the target's address plus
 * the addend less `image_base`, modulo 2^64; in 32 to 47 the diversity, in 48 the low bit of the address
 * diversity, in 49 and 50 the low two of the key, and bit 63 set. For an imported symbol nothing is
 * written.
 *
 * Numbers, in this order: 1, 2, then entry by entry, but for those that a SUBTRACTOR takes, 3 (its
 * offset), 11, 9, 5, 8, 10 (of AUTHENTICATED_POINTER too, for any section), 16 (that difference is above
 * 2^32 - 1; never for an imported symbol), 3 (the bytes that it reads or writes).
 */
uint8_t hauklivo_apply_reloc_alloc(uint8_t *section, size_t section_len, uint64_t base,
                                   uint64_t tls_begin, uint64_t image_base, const void *entries,
                                   size_t entries_len, const void *targets, size_t targets_len,
                                   void *slots, size_t slots_len, size_t *count);

/*
 * Writes the 12 bytes of the stub at `address` that jumps through the pointer at `pointer`.
 * `reaches` gets 1 where its ADRP reaches the pointer's page, else 0; the stub is written in either
 * case. Number: 3 for fewer than 12 bytes.
 */
uint8_t hauklivo_write_stub(uint8_t *bytes, size_t bytes_len, uint64_t address, uint64_t pointer,
                            uint8_t *reaches);

/*
 * Writes the 12 bytes of the thunk entry at `address` that jumps to `target`.
 * Number: 3 for fewer than 12 bytes.
 */
uint8_t hauklivo_write_thunk(uint8_t *bytes, size_t bytes_len, uint64_t address, uint64_t target);

/*
 * Works hints on an image whose bytes are fixed up: objects by rising number, in each the hints of
 * the kinds 2 to 8 by their position in the list, then those of kind 1. Hints that come by rising object
 * number take time linear in their number; another order takes walks over the list for each object,
 * and quadratic time: sort them.
 *
 *   image    the bytes of every section that a hint's part is in
 *   hints    struct hauklivo_hint_record
 *   entries  struct hauklivo_reloc, of arm64 objects
 *   tally    gets the four counts where 0 comes back. Its 16 bytes are read, and where the call
 *            refuses the same are written back; nothing else depends on them. So it may be
 *            uninitialised when lent, and is then still so after a refusal
 *
 * Numbers, in this order: 1, then hint by hint, but for those that are skipped, 3 (its part, then its
 * words), 12.
 */
uint8_t hauklivo_apply_hints(uint8_t *image, size_t image_len, const void *hints, size_t hints_len,
                             const void *entries, size_t entries_len, struct hauklivo_tally *tally);

/*
 * Works hints as hauklivo_apply_hints does, with the same image and the same tally, and says of each hint
 * which rule acted. Of its time the same holds; it stores 16 bytes for each hint beside.
 *
 *   image    as for hauklivo_apply_hints; so are hints, entries and tally
 *   records  at least 16 bytes for each hint; gets struct hauklivo_rule_record, one for each hint, in the
 *            order of work: objects by rising number, in each the hints of every kind but 1 by their
 *            position in the list, then those of kind 1, also where they are skipped. Its length need
 *            not be whole records; bytes after the records stay
 *
 * Numbers, in this order: 1, 2, then hint by hint, but for those that are skipped, 3 (its part, then its
 * words), 12.
 */
uint8_t hauklivo_apply_hints_listed(uint8_t *image, size_t image_len, const void *hints,
                                    size_t hints_len, const void *entries, size_t entries_len,
                                    void *records, size_t records_len,
                                    struct hauklivo_tally *tally);

/*
 * Reads the payload of LC_LINKER_OPTIMIZATION_HINT into a row of 64-bit values: for each hint its
 * kind, a count, and then that many addresses.
 *
 *   payload  the same values as unsigned LEB128, one after another. A spelling may be longer than
 *            it need be. The payload's end closes the list, or a kind 0 in any spelling, after
 *            which every byte must be zero; a count of 0 and an address of 0 close nothing
 *   slots    at least one for each byte of the payload; gets the row. `slots_count` counts values
 *   count    gets how many values that is; slots after them stay
 *
 * Kinds above 8, and counts other than a kind has, are read as they are.
 *
 * Numbers, in this order: 1, 2, then 13 or 14; no payload is both.
 */
uint8_t hauklivo_read_hints(const uint8_t *payload, size_t payload_len, uint64_t *slots,
                            size_t slots_count, size_t *count);

/* The most bytes that a value of a row is written with. */
#define HAUKLIVO_SPELLING 10

/*
 * Writes a row of 64-bit values, as hauklivo_read_hints fills it, as a payload: each value in its
 * shortest spelling. No zero is added to close the list. What is written is read back unless it is
 * longer than the 2^32 - 1 bytes that hauklivo_read_hints takes, which needs a row of more than
 * 429,496,729 values.
 *
 *   row    for each hint its kind, which may not be 0, a count, and then that many addresses.
 *          `row_count` counts values
 *   out    at least HAUKLIVO_SPELLING bytes for each value; gets the payload
 *   count  gets how many bytes that is; bytes of `out` after them stay
 *
 * Numbers, in this order: 1, 2.
 */
uint8_t hauklivo_write_hints(const uint64_t *row, size_t row_count, uint8_t *out, size_t out_len,
                             size_t *count);

/* The most bytes of text that a word is listed with. */
#define HAUKLIVO_LINE 27

/*
 * Lists the 4-byte words of a section, a line for each: its offset and the word in hexadecimal,
 * then adrp, add, load N, store N (N bytes are moved) or other.
 *
 *   words  at most 16,384 bytes
 *   out    at least HAUKLIVO_LINE bytes for each word; gets ASCII text with no 0 at its end
 *   count  gets how many bytes that is; bytes of `out` after them stay
 *
 * Numbers: 2, then 1 where the words are not whole.
 */
uint8_t hauklivo_list(const uint8_t *words, size_t words_len, uint8_t *out, size_t out_len,
                      size_t *count);

/* Bits of an entry in the table of load and store classes. */
enum hauklivo_class {
    /* LDRSW: 4 bytes, sign-extended into 8 of a general register. */
    HAUKLIVO_CLASS_LDRSW = 1,
    /* Of a vector register; where clear, of a general one. */
    HAUKLIVO_CLASS_VECTOR = 2,
    /* A store; where clear, a load. */
    HAUKLIVO_CLASS_STORE = 4
};

/* The bytes that are moved, of such an entry: 1, 2, 4, 8 or 16; of 0 none. */
#define HAUKLIVO_CLASS_BYTES(entry) ((entry) / 8)

/*
 * A word's entry in the table of load and store classes: 8 times the bytes that it moves, plus the bits
 * of enum hauklivo_class. Bits 31 to 22 of the word decide, and no other counts. Only loads and stores
 * of a register with a scaled unsigned offset, which hints speak of, have an entry: it is 0 for every
 * other word, also for pairs, literal loads, unscaled, indexed and exclusive accesses, for a prefetch,
 * and for what the Arm manual leaves unallocated.
 *
 *   insn  the word as a number: four bytes of a section, little-endian
 */
uint8_t hauklivo_load_store_class(uint32_t insn);

#undef HAUKLIVO_ASSERT
#ifdef __cplusplus
}
#endif

#endif
