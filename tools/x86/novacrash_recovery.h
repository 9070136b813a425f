/* SPDX-License-Identifier: Apache-2.0
 *
 * A recovery in C, from one source: as a program for x86-64, which tools/x86/novacrash-ask runs on a file, and by tools/c/novacrash-cc as
 * a routine for `novacrash judge`. The source includes this header once, and defines
 *
 *     int recover(unsigned char *medium);
 *
 * which gets the address of the medium, and ends by nc_answer(address, length) with the answer's bytes, or returns another number than 0
 * where it finds damage.
 */
#ifndef NOVACRASH_RECOVERY_H
#define NOVACRASH_RECOVERY_H

int recover(unsigned char *medium);

#ifdef __riscv
#include "novacrash.h"

int main(unsigned long hart, unsigned char *medium) { return recover(medium); }
#else
#include <fcntl.h>
#include <stdlib.h>
#include <sys/mman.h>
#include <sys/stat.h>
#include <unistd.h>

#define nc_answer(address, length) exit(write(1, (address), (length)) != (ssize_t)(length))

int main(int count, char **words)
{
    struct stat status;
    int file = count == 2 ? open(words[1], O_RDWR) : -1;
    if (file < 0 || fstat(file, &status)) return 2;
    void *medium = mmap(0, status.st_size, PROT_READ | PROT_WRITE, MAP_SHARED, file, 0);
    return medium == MAP_FAILED ? 2 : recover(medium);
}
#endif

#endif
