/*
 * The front of target/c/libdoor.a. The archive has every call three times, compiled from the same proved
 * crates for three levels of x86-64 processors (x86-64-v4 has the code of x86-64-v3 for now); c/library
 * joins them to this file. When the program
 * is loaded, choose() takes the best level that processor and operating system have, or a lower one
 * that the environment variable DOOR_LEVEL names.
 *
 * Each call is a jump through a slot: registers and stack stay as the caller set them, so arguments,
 * and the room for a struct that is returned, need no copy. An indirect function of the linker
 * (ifunc) would be the same jump. But its choice is made before a C library has its environment, so
 * that no variable could hold it to a level, and not every C library has them.
 */
#include "door.h"

#include <cpuid.h>
#include <stdbool.h>
#include <stdlib.h>

/* Every call, once. c/library fails where the archives have others. */
#define CALLS(CALL)           \
    CALL(door_start_dealer)   \
    CALL(door_deal)           \
    CALL(door_deal_between)   \
    CALL(door_deal_by_clock)  \
    CALL(door_start_party)    \
    CALL(door_load)           \
    CALL(door_trial)          \
    CALL(door_mask)           \
    CALL(door_take)           \
    CALL(door_finish)         \
    CALL(door_drop)           \
    CALL(door_start_lock)     \
    CALL(door_join)           \
    CALL(lock_join)           \
    CALL(lock_last)           \
    CALL(door_iris_to_rings)  \
    CALL(door_iris_to_angles) \
    CALL(door_iris_unpack)    \
    CALL(door_iris_pack)      \
    CALL(door_iris_hamming)   \
    CALL(door_margin)

/* A call at each level, under the names that tools/levels gives, and the slot with the one in use:
   the plain one, which runs everywhere, until choose() has run. Hidden, so that they are reached
   relative to the code wherever that is loaded. */
#define FORMS(call)                                                                      \
    __attribute__((visibility("hidden")))                                                \
    __typeof__(call) call##_x86_64, call##_x86_64_v3, call##_x86_64_v4;                  \
    static __typeof__(call) *const call##_at[] = {                                       \
        call##_x86_64, call##_x86_64_v3, call##_x86_64_v4};                              \
    __attribute__((visibility("hidden"))) __typeof__(call) *call##_slot = call##_x86_64;
CALLS(FORMS)

/* The call itself. It leaves the stack as it is, which is what the cfi lines tell a debugger. */
#define JUMP(call)                             \
    __asm__(".pushsection .text\n"             \
            ".balign 16\n"                     \
            ".globl " #call "\n"               \
            ".type " #call ", @function\n"     \
            #call ":\n"                        \
            ".cfi_startproc\n"                 \
            "jmp *" #call "_slot(%rip)\n"      \
            ".cfi_endproc\n"                   \
            ".size " #call ", . - " #call "\n" \
            ".popsection\n");
CALLS(JUMP)

/* What a processor has or a level needs, as bits of cpuid's words. `saved` are the registers that
   the operating system keeps for a program: without its consent the wide ones are not to be used. */
struct features {
    uint32_t basic;    /* leaf 1, ecx */
    uint32_t extended; /* leaf 7, ebx */
    uint32_t further;  /* leaf 0x80000001, ecx */
    uint32_t saved;    /* XCR0 */
};

#define SAVED_256 0x06u /* xmm, and the upper halves of ymm */
#define SAVED_512 0xe6u /* with these the masks, the upper halves of zmm, and zmm16 to zmm31 */
#define BASIC_V3                                                                           \
    (bit_SSE3 | bit_SSSE3 | bit_FMA | bit_CMPXCHG16B | bit_SSE4_1 | bit_SSE4_2 | bit_MOVBE \
        | bit_POPCNT | bit_OSXSAVE | bit_AVX | bit_F16C)
#define EXTENDED_V3 (bit_BMI | bit_AVX2 | bit_BMI2)
#define EXTENDED_V4 \
    (EXTENDED_V3 | bit_AVX512F | bit_AVX512DQ | bit_AVX512CD | bit_AVX512BW | bit_AVX512VL)
#define FURTHER_V3 (bit_LAHF_LM | bit_LZCNT)

/* Lowest first, in the order of FORMS; each has all of the one before, as the x86-64 ABI defines them. */
static const struct level {
    const char *name;
    struct features needs;
} LEVELS[] = {
    {"x86-64", {0, 0, 0, 0}},
    {"x86-64-v3", {BASIC_V3, EXTENDED_V3, FURTHER_V3, SAVED_256}},
    {"x86-64-v4", {BASIC_V3, EXTENDED_V4, FURTHER_V3, SAVED_512}},
};
#define HIGHEST (sizeof LEVELS / sizeof *LEVELS - 1)

static size_t in_use;

static struct features processor(void)
{
    struct features has = {0, 0, 0, 0};
    uint32_t a, b, c, d;
    if (__get_cpuid(1, &a, &b, &c, &d))
        has.basic = c;
    if (__get_cpuid_count(7, 0, &a, &b, &c, &d))
        has.extended = b;
    if (__get_cpuid(0x80000001, &a, &b, &c, &d))
        has.further = c;
    if (has.basic & bit_OSXSAVE)
        __asm__("xgetbv" : "=a"(has.saved), "=d"(d) : "c"(0));
    return has;
}

static bool suffices(const struct features *has, const struct features *needs)
{
    return (needs->basic & ~has->basic) == 0 && (needs->extended & ~has->extended) == 0
        && (needs->further & ~has->further) == 0 && (needs->saved & ~has->saved) == 0;
}

static bool same(const char *a, const char *b)
{
    while (*a != 0 && *a == *b) {
        a++;
        b++;
    }
    return *a == *b;
}

/* The highest level that is allowed: all of them, unless the name is that of a level. */
static size_t limit(const char *name)
{
    for (size_t level = 0; name != NULL && level < HIGHEST; level++)
        if (same(name, LEVELS[level].name))
            return level;
    return HIGHEST;
}

/* As early as a program may: code that runs before gets the plain calls, which are right as well. */
__attribute__((constructor(101))) static void choose(void)
{
    const struct features has = processor();
    const size_t most = limit(getenv("DOOR_LEVEL"));
    while (in_use < most && suffices(&has, &LEVELS[in_use + 1].needs))
        in_use++;
#define TAKE(call) call##_slot = call##_at[in_use];
    CALLS(TAKE)
}

const char *door_level(void)
{
    return LEVELS[in_use].name;
}
