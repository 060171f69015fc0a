/* See machine.h. A time under an emulator says nothing, so the program asks before it measures. */
#include "machine.h"

#include <stdio.h>
#include <string.h>

#if defined(__x86_64__)
#include <cpuid.h>
#define COMPILED_FOR "x86_64"

/* QEMU without the help of the processor signs with this name, for one program and for a whole machine.
 * Rosetta names the processor that it plays. */
static const char *emulated_processor(void)
{
    unsigned a, sign[4] = { 0 }, brand[4] = { 0 };
    __cpuid(0x40000000u, a, sign[0], sign[1], sign[2]);
    if (memcmp(sign, "TCGTCGTCGTCG", 12) == 0) {
        return "QEMU plays this processor";
    }
    __cpuid(0x80000002u, brand[0], brand[1], brand[2], brand[3]);
    return memcmp(brand, "VirtualApple", 12) == 0 ? "Rosetta plays this processor" : NULL;
}
#elif defined(__aarch64__)
#define COMPILED_FOR "aarch64"

static const char *emulated_processor(void)
{
    return NULL;
}
#else
#define COMPILED_FOR ""

static const char *emulated_processor(void)
{
    return NULL;
}
#endif

/* The kernel knows the machine that it runs on, whatever the program believes. Older kernels have no such
 * file. */
static int kernel_is_of_another_kind(void)
{
    char kind[64] = "";
    FILE *file = fopen("/proc/sys/kernel/arch", "r");
    if (file == NULL) {
        return 0;
    }
    int read = fscanf(file, "%63s", kind);
    fclose(file);
    return read == 1 && COMPILED_FOR[0] != 0 && strcmp(kind, COMPILED_FOR) != 0;
}

const char *emulated(void)
{
    if (kernel_is_of_another_kind()) {
        return "the program was compiled for another kind of processor than the kernel's";
    }
    return emulated_processor();
}
