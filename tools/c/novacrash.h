/* What a routine in C says to the machine of novacrash: cleans, fences, the marks of operations, and its end.
 *
 * The persistent medium begins at PERSISTENT, and main is called with the number of the hart and that address:
 *
 *     int main(unsigned long hart, unsigned char *medium);
 *
 * What main returns, modulo 256, is the hart's exit code.
 *
 * These are macros, and not functions, so that the line and the function of each of their instructions are those of the call. The words
 * of cbo.clean and cbo.flush are given by their fields, so that a compiler for RV64IA takes them.
 */
#ifndef NOVACRASH_H
#define NOVACRASH_H

#define PERSISTENT ((unsigned char *)0x40000000UL)
#define LINE_SIZE 64UL

/* Cleans the cache line of an address: its stores so far reach the medium by this hart's next fence. */
#define nc_clean(address) __asm__ volatile(".insn i 0x0f, 2, x0, %0, 1" : : "r"(address) : "memory")

/* The same, and the line leaves the cache. */
#define nc_flush(address) __asm__ volatile(".insn i 0x0f, 2, x0, %0, 2" : : "r"(address) : "memory")

/* Completes the cleans and flushes that this hart made before it. */
#define nc_fence() __asm__ volatile("fence w, w" : : : "memory")

#define nc_call(number, argument)                                        \
    do {                                                                 \
        register unsigned long nc_a0 __asm__("a0") = (argument);         \
        register unsigned long nc_a7 __asm__("a7") = (number);           \
        __asm__ volatile("ecall" : : "r"(nc_a0), "r"(nc_a7) : "memory"); \
    } while (0)

/* The operation of this number, as the plan has it, begins. */
#define nc_begin(operation) nc_call(2001UL, operation)

/* The operation is told to be done: whatever a power cut leaves from here on has it. */
#define nc_end(operation) nc_call(2002UL, operation)

/* The hart exits with the low byte of the code. */
#define nc_exit(code)            \
    do {                         \
        nc_call(93UL, code);     \
        __builtin_unreachable(); \
    } while (0)

/* A recovery routine ends here, with these bytes of data memory as its answer. */
#define nc_answer(address, length)                                                                           \
    do {                                                                                                     \
        const void *nc_bytes = (address);                                                                    \
        unsigned long nc_length = (length);                                                                  \
        register unsigned long nc_a0 __asm__("a0") = 0;                                                      \
        register const void *nc_a1 __asm__("a1") = nc_bytes;                                                 \
        register unsigned long nc_a2 __asm__("a2") = nc_length;                                              \
        register unsigned long nc_a7 __asm__("a7") = 93;                                                     \
        __asm__ volatile("ecall" : : "r"(nc_a0), "r"(nc_a1), "r"(nc_a2), "r"(nc_a7) : "memory");            \
        __builtin_unreachable();                                                                             \
    } while (0)

#endif
