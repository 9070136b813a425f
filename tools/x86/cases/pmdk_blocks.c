/* SPDX-License-Identifier: Apache-2.0
 *
 * Drives libpmemblk, PMDK's array of blocks, each of which is written as a whole or not at all.
 *     pmdk_blocks FILE create | write BLOCK LETTER .. | show
 */
#include <libpmemblk.h>
#include <stdio.h>
#include <stdlib.h>
#include <string.h>

#define BLOCK_SIZE 512
#define SHOWN 8

/* Prints the letter of each of the first blocks, which has to be all of the block. */
static int show(PMEMblkpool *pool)
{
    char block[BLOCK_SIZE];
    for (int number = 0; number < SHOWN; number++) {
        if (pmemblk_read(pool, block, number)) return 67;
        for (int i = 1; i < BLOCK_SIZE; i++)
            if (block[i] != block[0]) return 68;
        putchar(block[0] ? block[0] : '.');
    }
    puts("");
    return 0;
}

int main(int count, char **words)
{
    if (count < 3) return 64;
    int creates = !strcmp(words[2], "create");
    PMEMblkpool *pool = creates ? pmemblk_create(words[1], BLOCK_SIZE, PMEMBLK_MIN_POOL, 0644) : pmemblk_open(words[1], BLOCK_SIZE);
    if (!pool) {
        fprintf(stderr, "%s\n", pmemblk_errormsg());
        return 65;
    }
    if (!strcmp(words[2], "show")) return show(pool);
    for (int i = 3; i + 1 < count; i += 2) {
        char block[BLOCK_SIZE];
        memset(block, words[i + 1][0], sizeof block);
        if (pmemblk_write(pool, block, atoi(words[i]))) return 66;
    }
    pmemblk_close(pool);
    return 0;
}
