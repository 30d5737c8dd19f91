/*
 * Results by the whole register: a library for a Mac must leave nothing above the byte, and that for Arm Linux is compiled
 * from the same module. The one for x86-64 Linux may leave anything there. This sees bits that a call does leave; that none
 * may, `zeroext`, is held by tests/targets alone, against what clang reads in the header.
 */
#include <stdint.h>

#ifdef __aarch64__
typedef uint32_t result;
#else
typedef uint8_t result;
#endif
#define CALL(name) __asm__("hauklivo_" #name)
