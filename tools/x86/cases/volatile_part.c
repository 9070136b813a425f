/* SPDX-License-Identifier: Apache-2.0
 *
 * volatile_part FILE: says of a part of its file that it is volatile, as libpmemobj does of its locks. The part begins in line 1 and ends
 * in line 2, each of which has persistent bytes too. Behind each line stand its events.
 */
#include <fcntl.h>
#include <immintrin.h>
#include <sys/mman.h>
#include <unistd.h>
#include "novacrash_marks.h"

#define VOLATILE_PART (VG_USERREQ_TOOL_BASE('P', 'C') + 2)

int main(int count, char **words)
{
    int file = open(words[1], O_RDWR | O_CREAT, 0644);
    if (count != 2 || ftruncate(file, 4096)) return 2;
    char *bytes = mmap(0, 4096, PROT_READ | PROT_WRITE, MAP_SHARED, file, 0);
    VALGRIND_DO_CLIENT_REQUEST_STMT(VOLATILE_PART, bytes + 64 + 24, 64, 0, 0, 0);
    nc_begin(1);                              //= begin 1
    *(volatile long *)(bytes + 80) = 1;       //= store l1+16 w8 0x1
    *(volatile long *)(bytes + 88) = 1;       //=
    *(volatile long *)(bytes + 144) = 1;      //=
    *(volatile long *)(bytes + 152) = 1;      //= store l2+24 w8 0x1
    _mm_clwb(bytes + 88);                     //= clean l1
    _mm_clwb(bytes + 128);                    //= clean l2
    _mm_sfence();                             //= fence
    nc_end(1);                                //= end 1
    return 0;
}
