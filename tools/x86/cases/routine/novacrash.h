/* SPDX-License-Identifier: Apache-2.0
 *
 * In place of tools/c/novacrash.h: a routine in C as a program for x86-64, whose medium is the file that it is called with.
 *     gcc -O1 -g -mclwb -I tools/x86 -I tools/x86/cases/routine append.c -o append && ./append FILE
 */
#include <fcntl.h>
#include <immintrin.h>
#include <sys/mman.h>
#include <sys/stat.h>
#include "novacrash_marks.h"

#define LINE_SIZE 64UL
#define nc_clean(address) _mm_clwb((void *)(address))
#define nc_fence() _mm_sfence()

int routine(unsigned long hart, unsigned char *medium);

int main(int count, char **words)
{
    struct stat status;
    int file = count == 2 ? open(words[1], O_RDWR) : -1;
    if (file < 0 || fstat(file, &status)) return 2;
    void *medium = mmap(0, status.st_size, PROT_READ | PROT_WRITE, MAP_SHARED, file, 0);
    return medium == MAP_FAILED ? 2 : routine(0, medium);
}

#define main routine
