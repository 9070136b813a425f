/* SPDX-License-Identifier: Apache-2.0
 *
 * recovers FILE: a recovery for the tests of novacrash-ask. It prints the sum of the file's bytes and their number, and then
 * does what byte 128 says.
 */
#define _GNU_SOURCE
#include <fcntl.h>
#include <signal.h>
#include <stdio.h>
#include <stdlib.h>
#include <string.h>
#include <sys/mman.h>
#include <sys/stat.h>
#include <unistd.h>

#define COMMAND 128

/* Another file of the size takes the file's place. */
static int replace(const char *name, long size)
{
    char other_name[4096];
    snprintf(other_name, sizeof other_name, "%s.other", name);
    int other = open(other_name, O_RDWR | O_CREAT | O_TRUNC, 0644);
    return other < 0 || ftruncate(other, size) || rename(other_name, name);
}

static void print_sum(const unsigned char *bytes, long size)
{
    unsigned long sum = 0;
    for (long i = 0; i < size; i++) sum += bytes[i];
    printf("%lu of %ld", sum, size);
    fflush(stdout);
}

int main(int count, char **words)
{
    struct stat status;
    int file = count == 2 ? open(words[1], O_RDWR) : -1;
    if (file < 0 || fstat(file, &status)) return 2;
    unsigned char *bytes = mmap(0, status.st_size, PROT_READ | PROT_WRITE, MAP_SHARED, file, 0);
    char command = bytes[COMMAND];
    if (command == 'o') return printf("o") != 1; /* it loads no other line */
    if (command == 'n') return 0;
    if (command == 'm') return write(1, calloc(1, 65537), 65537) != 65537;
    if (command == 'l') pause();
    print_sum(bytes, status.st_size);
    if (command == 'w') memset(bytes, 1, status.st_size);
    if (command == 't') return ftruncate(file, 10);
    if (command == 'z') return ftruncate(file, 10) || ftruncate(file, status.st_size);
    if (command == 'h') return fallocate(file, FALLOC_FL_PUNCH_HOLE | FALLOC_FL_KEEP_SIZE, 0, status.st_size);
    if (command == 'g') return ftruncate(file, 2 * status.st_size);
    if (command == 'd') return unlink(words[1]);
    if (command == 'r') return replace(words[1], status.st_size);
    if (command == 'e') return 7;
    if (command == 's') raise(SIGSEGV);
    return 0;
}
