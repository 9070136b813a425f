/* SPDX-License-Identifier: Apache-2.0
 *
 * The recovery of pmem_log.c: it answers the values of the records that are used, whose texts have to be whole.
 */
#include "novacrash_recovery.h"
#include "pmem_log.h"

#define MOST 20

int recover(unsigned char *medium)
{
    static unsigned long values[MOST];
    const volatile struct log *log = (const volatile struct log *)medium;
    unsigned long used = log->used;
    if (used > MOST) return 3;
    for (unsigned long i = 0; i < used; i++) {
        values[i] = log->records[i].value;
        for (unsigned long at = 0; at < sizeof log->records[i].text; at++)
            if (log->records[i].text[at] != 'a' + values[i] % 26) return 4;
    }
    nc_answer(values, used * sizeof *values);
}
