/* SPDX-License-Identifier: Apache-2.0
 *
 * A log of records by libpmem. pmem_log FILE appends three records.
 * -DMISSING_DRAIN: a record is copied without a drain of its own, so it may be lost though the tail counts it.
 * pmem_log_recovery.c is the recovery.
 */
#include <libpmem.h>
#include <stdio.h>
#include <string.h>
#include "novacrash_marks.h"
#include "pmem_log.h"

static void append(struct log *log, unsigned long value)
{
    struct record record = { value, "" };
    memset(record.text, 'a' + value % 26, sizeof record.text);
#ifdef MISSING_DRAIN
    pmem_memcpy_nodrain(&log->records[log->used], &record, sizeof record);
#else
    pmem_memcpy_persist(&log->records[log->used], &record, sizeof record);
#endif
    log->used++;
    pmem_persist(&log->used, sizeof log->used);
}

int main(int count, char **words)
{
    struct log *log = count == 2 ? pmem_map_file(words[1], 4096, PMEM_FILE_CREATE, 0644, NULL, NULL) : NULL;
    if (!log) {
        fprintf(stderr, "%s\n", pmem_errormsg());
        return 2;
    }
    for (int i = 1; i <= 3; i++) {
        nc_begin(i);
        append(log, 100 + i);
        nc_end(i);
    }
    return 0;
}
