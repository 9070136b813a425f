/* SPDX-License-Identifier: Apache-2.0
 *
 * What reaches a mapped file by other ways than stores. system_calls FILE WAY, where WAY is:
 *   read: the kernel stores into the mapping    write, truncate, remap: the trace is given up    grow: a store behind the old end
 *   fork: a child stores, and is no part of the trace    private: a private mapping, whose stores reach no file
 *   many: stores of more events than a trace has         none: nothing is marked
 */
#define _GNU_SOURCE
#include <fcntl.h>
#include <string.h>
#include <sys/mman.h>
#include <sys/wait.h>
#include <unistd.h>
#include "novacrash_marks.h"

#define SIZE 8192

static int file;
static volatile unsigned char *bytes;

static int go(const char *way)
{
    int pipes[2];
    if (!strcmp(way, "read")) {
        if (pipe(pipes) || write(pipes[1], "abcdefghijkl", 12) != 12) return 1;
        return read(pipes[0], (void *)(bytes + 4), 12) != 12;
    }
    if (!strcmp(way, "write")) return pwrite(file, "x", 1, 0) != 1;
    if (!strcmp(way, "truncate")) return ftruncate(file, SIZE / 2);
    if (!strcmp(way, "remap")) bytes = mremap((void *)bytes, 2 * SIZE, 4 * SIZE, MREMAP_MAYMOVE);
    if (!strcmp(way, "fork")) {
        if (fork() == 0) {
            bytes[128] = 1;
            _exit(0);
        }
        return wait(NULL) < 0;
    }
    if (!strcmp(way, "private")) {
        volatile char *copy = mmap(0, SIZE, PROT_READ | PROT_WRITE, MAP_PRIVATE, file, 0);
        copy[256] = 1;
    }
    for (long i = 0; !strcmp(way, "many") && i < 70000; i++) bytes[0]++;
    return 0;
}

int main(int count, char **words)
{
    file = open(words[1], O_RDWR | O_CREAT, 0644);
    int grows = !strcmp(words[2], "grow");
    if (count != 3 || ftruncate(file, SIZE)) return 2;
    bytes = mmap(0, 2 * SIZE, PROT_READ | PROT_WRITE, MAP_SHARED, file, 0);
    if (!strcmp(words[2], "none")) return 0;
    nc_start();
    nc_begin(1);
    bytes[0] = 1;
    if (grows) {
        /* by its name, which the tracer does not watch: the store behind the old end is what shows */
        if (truncate(words[1], 2 * SIZE)) return 1;
        bytes[SIZE] = 1;
    }
    int status = go(words[2]);
    bytes[64] = 2;
    nc_end(1);
    nc_stop();
    return status;
}
