/* SPDX-License-Identifier: Apache-2.0
 *
 * The recovery of own_log.c: it answers the values that the log counts.
 */
#include "novacrash_recovery.h"
#include "own_log.h"

#define MOST 62

int recover(unsigned char *medium)
{
    static unsigned long values[MOST];
    const volatile struct log *log = (const volatile struct log *)medium;
    unsigned long tail = log->tail;
    if (tail > MOST) return 3;
    for (unsigned long i = 0; i < tail; i++) {
        values[i] = log->entries[i].value;
        if (log->entries[i].check != ~values[i]) return 4;
    }
    nc_answer(values, tail * sizeof *values);
}
