/*
 * Holds hauklivo_load_store_class against the table of load and store classes: its 1,024 entries as numbers, in order, from
 * the standard input. Each is asked for with low bits all 0 and all 1.
 */
#include "result.h"

#include <stdio.h>

enum { ENTRIES = 1024, LOW = 0x3fffff };

result load_store_class(uint32_t) CALL(load_store_class);

int main(void)
{
    unsigned entry, index = 0, some = 0;
    for (; index < ENTRIES && scanf("%u", &entry) == 1; index++) {
        result zeros = load_store_class(index << 22), ones = load_store_class(index << 22 | LOW);
        if (zeros != entry || ones != entry) {
            fprintf(stderr, "bits 31 to 22 are %03x: %u and %u, where the table has %u\n", index, zeros, ones, entry);
            return 1;
        }
        some += entry != 0;
    }
    if (index < ENTRIES || scanf("%u", &entry) != EOF) {
        fprintf(stderr, "the list has not %d entries\n", ENTRIES);
        return 1;
    }
    printf("%u classes are those of the table, %u of a load or store\n", index, some);
    return 0;
}
