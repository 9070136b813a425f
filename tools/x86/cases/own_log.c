/* SPDX-License-Identifier: Apache-2.0
 *
 * A log in a mapped file, by intrinsics. own_log FILE appends three entries.
 * -DMISSING_CLEAN: the entry is not cleaned. -DMISSING_FENCE: it is cleaned, and fenced only with the tail.
 * own_log_recovery.c is the recovery.
 */
#include <fcntl.h>
#include <immintrin.h>
#include <string.h>
#include <sys/mman.h>
#include <unistd.h>
#include "novacrash_marks.h"
#include "own_log.h"

#define LINE_SIZE 64

static void clean(void *start, size_t size)
{
    char *line = (char *)((unsigned long)start & ~(LINE_SIZE - 1ul));
    for (; line < (char *)start + size; line += LINE_SIZE) _mm_clwb(line);
}

static void append(struct log *log, unsigned long value)
{
    struct entry *entry = &log->entries[log->tail];
    entry->value = value;
    entry->check = ~value;
    strcpy(entry->name, "entry");
#ifndef MISSING_CLEAN
    clean(entry, sizeof *entry);
#endif
#ifndef MISSING_FENCE
    _mm_sfence();
#endif
    log->tail++;
    clean(&log->tail, sizeof log->tail);
    _mm_sfence();
}

int main(int count, char **words)
{
    int file = open(words[1], O_RDWR | O_CREAT, 0644);
    if (count != 2 || file < 0 || ftruncate(file, sizeof(struct log))) return 2;
    struct log *log = mmap(0, sizeof *log, PROT_READ | PROT_WRITE, MAP_SHARED, file, 0);
    if (log == MAP_FAILED) return 2;
    for (int i = 1; i <= 3; i++) {
        nc_begin(i);
        append(log, 100 + i);
        nc_end(i);
    }
    return 0;
}
