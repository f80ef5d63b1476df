/*
 * What begins a program on the Cortex-M4 that qemu has (cortex_m4.ld), with newlib over semihosting (--specs=rdimon.specs): memory, the
 * arguments of the command line, main and exit. With -DTRAP_UNALIGNED each access that isn't aligned is a fault, and memcpy, memmove and
 * memset go byte by byte, since newlib's don't keep to that. A fault ends the program with status 1.
 */
#include <stdint.h>
#include <stdlib.h>
#include <string.h>

extern uint8_t data_kept[], data_begin[], data_end[], __bss_start__[], __bss_end__[], stack_top[];
int main(int count, char **words);
void initialise_monitor_handles(void);
void reset(void);
void _init(void);
void _fini(void);

static uintptr_t semihosting(uintptr_t call, const void *block) {
    register uintptr_t r0 __asm("r0") = call;
    register const void *r1 __asm("r1") = block;
    __asm volatile("bkpt 0xab" : "+r"(r0) : "r"(r1) : "memory");
    return r0;
}

static void fault(void) {
    for (;;) semihosting(0x18, (const void *)0x20023);
}

typedef void (*Handler)(void);
__attribute__((section(".vectors"), used)) static const Handler vectors[16] = {(Handler)(uintptr_t)stack_top, reset, fault, fault, fault, fault, fault};

void _init(void) {}
void _fini(void) {}

void reset(void) {
    static char line[256], *words[16];
    struct { char *at; uint32_t length; } block = {line, sizeof line};
    int count = 0;
#ifdef TRAP_UNALIGNED
    *(volatile uint32_t *)0xE000ED14 |= 8u;
#endif
    memcpy(data_begin, data_kept, (size_t)(data_end - data_begin));
    memset(__bss_start__, 0, (size_t)(__bss_end__ - __bss_start__));
    initialise_monitor_handles();
    semihosting(0x15, &block);
    for (char *word = strtok(line, " "); word != NULL && count < 15; word = strtok(NULL, " ")) words[count++] = word;
    exit(main(count, words));
}

#ifdef TRAP_UNALIGNED
void *memcpy(void *restrict to, const void *restrict from, size_t length) {
    volatile uint8_t *a = to;
    const volatile uint8_t *b = from;
    while (length-- > 0) *a++ = *b++;
    return to;
}

void *memmove(void *to, const void *from, size_t length) {
    volatile uint8_t *a = to;
    const volatile uint8_t *b = from;
    if ((uintptr_t)a <= (uintptr_t)b) return memcpy(to, from, length);
    while (length-- > 0) a[length] = b[length];
    return to;
}

void *memset(void *to, int byte, size_t length) {
    volatile uint8_t *a = to;
    while (length-- > 0) *a++ = (uint8_t)byte;
    return to;
}
#endif
