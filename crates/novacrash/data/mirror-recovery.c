/* The recovery of mirror.c: makes both copies the same good one, and answers its values. It exits with 1 if neither is good.
 * -DRENEW counts the generation up when it repairs. With -DUNFENCED too no fence parts the two copies. */
#include "novacrash.h"
#include "mirror.h"

static unsigned long answer[VALUES];

static int is_good(const volatile struct copy *copy)
{
    return sum_of(copy) == copy->sum;
}

static void bring(volatile struct copy *to, const volatile struct copy *from, unsigned long generation)
{
    to->generation = generation;
    for (unsigned long i = 0; i < VALUES; i++)
        to->values[i] = from->values[i];
    to->sum = sum_of(to);
    clean_copy(to);
}

int main(unsigned long hart, unsigned char *medium)
{
    volatile struct copy *copies = (volatile struct copy *)medium;
    int first = is_good(&copies[0]), second = is_good(&copies[1]);
    if (!first && !second)
        return 1;
    int takes = !first || (second && copies[1].generation > copies[0].generation);
    volatile struct copy *good = &copies[takes], *other = &copies[!takes];
    if (!first || !second || good->generation != other->generation) {
#ifdef RENEW
        bring(other, good, good->generation + 1);
#ifndef UNFENCED
        nc_fence();
#endif
        bring(good, good, good->generation + 1);
#else
        bring(other, good, good->generation);
#endif
        nc_fence();
    }
    for (unsigned long i = 0; i < VALUES; i++)
        answer[i] = good->values[i];
    register unsigned long a1 __asm__("a1") = (unsigned long)answer;
    register unsigned long a2 __asm__("a2") = sizeof answer;
    register unsigned long a0 __asm__("a0") = 0;
    register unsigned long a7 __asm__("a7") = 93;
    __asm__ volatile("ecall" : : "r"(a0), "r"(a1), "r"(a2), "r"(a7) : "memory");
    __builtin_unreachable();
}
