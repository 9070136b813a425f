/* Writes three records, each to both copies in turn. */
#include "novacrash.h"
#include "mirror.h"

static void write_copy(volatile struct copy *copy, unsigned long k)
{
    copy->generation++;
    for (unsigned long i = 0; i < VALUES; i++)
        copy->values[i] = (k << 8) + i;
    copy->sum = sum_of(copy);
    clean_copy(copy);
    nc_fence();
}

int main(unsigned long hart, unsigned char *medium)
{
    volatile struct copy *copies = (volatile struct copy *)medium;
    for (unsigned long k = 1; k <= 3; k++) {
        nc_begin(k);
        write_copy(&copies[0], k);
        write_copy(&copies[1], k);
        nc_end(k);
    }
    return 0;
}
