/* SPDX-License-Identifier: Apache-2.0
 *
 * loads FILE: loads lines of a file of 24 lines in several ways, and stores to one. Behind each line stand the lines that it loads
 * first.
 */
#define _GNU_SOURCE
#include <fcntl.h>
#include <stdio.h>
#include <sys/mman.h>
#include <sys/sendfile.h>
#include <unistd.h>

/* A mapping of the file by another name. */
static char *map_other_name(const char *name)
{
    char other[4096];
    snprintf(other, sizeof other, "%s.other", name);
    unlink(other);
    if (link(name, other)) return MAP_FAILED;
    return mmap(0, 1536, PROT_READ, MAP_SHARED, open(other, O_RDONLY), 0);
}

int main(int count, char **words)
{
    char here[64];
    volatile unsigned long sum = 0;
    int file = open(words[1], O_RDWR | O_CREAT, 0644), null = open("/dev/null", O_WRONLY);
    if (count != 2 || ftruncate(file, 1536)) return 2;
    volatile char *shared = mmap(0, 1536, PROT_READ | PROT_WRITE, MAP_SHARED, file, 0);
    volatile char *private = mmap(0, 1536, PROT_READ, MAP_PRIVATE, file, 0);
    sum += shared[64 * 5];                                    //= l5
    sum += *(volatile unsigned long *)(shared + 64 * 3 - 4);  //= l2 l3
    sum += shared[64 * 5 + 9];                                //=
    shared[64 * 7] = 1;                                       //=
    sum += private[64 * 8];                                   //= l8
    __sync_fetch_and_add((int *)(shared + 64 * 9), 1);        //= l9
    if (pread(file, here, 10, 64 * 11 - 5) != 10) return 1;   //= l10 l11
    if (read(file, here, 64) != 64) return 1;                 //= l0
    if (lseek(file, 64 * 13 + 1, SEEK_SET) < 0) return 1;
    if (read(file, here, 1) != 1) return 1;                   //= l13
    if (write(null, (void *)(shared + 64 * 14), 1) != 1) return 1; //= l14
    int pipes[2], copy = open("/dev/shm", O_TMPFILE | O_RDWR, 0600);
    long place = 64 * 16;
    if (copy < 0 || sendfile(copy, file, &place, 64) != 64) return 1; //= l16
    place = 64 * 17 + 63;
    if (pipe(pipes) || splice(file, &place, pipes[1], NULL, 2, 0) != 2) return 1; //= l17 l18
    if (lseek(file, 64 * 19, SEEK_SET) < 0) return 1;
    if (sendfile(copy, file, NULL, 1) != 1) return 1; //= l19
    volatile char *other = map_other_name(words[1]);
    if (other == MAP_FAILED) return 1;
    sum += other[64 * 23]; //= l23
    return 0;
}
