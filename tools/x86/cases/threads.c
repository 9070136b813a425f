/* SPDX-License-Identifier: Apache-2.0
 *
 * threads FILE COUNT: each thread stores to a line of its own, five times; operations of several threads overlap.
 */
#include <fcntl.h>
#include <immintrin.h>
#include <pthread.h>
#include <sched.h>
#include <stdlib.h>
#include <sys/mman.h>
#include <unistd.h>
#include "novacrash_marks.h"

static pthread_barrier_t all;
static volatile unsigned long *lines;

static void *work(void *number)
{
    unsigned long own = (unsigned long)number;
    pthread_barrier_wait(&all);
    for (int i = 1; i <= 5; i++) {
        nc_begin(10 * own + i);
        lines[8 * own] = i;
        sched_yield(); /* another thread's turn */
        _mm_clwb((void *)&lines[8 * own]);
        sched_yield();
        _mm_sfence();
        nc_end(10 * own + i);
    }
    return NULL;
}

int main(int count, char **words)
{
    pthread_t threads[16];
    long many = count == 3 ? atol(words[2]) : 0;
    int file = open(words[1], O_RDWR | O_CREAT, 0644);
    if (many < 1 || many > 16 || ftruncate(file, 4096)) return 2;
    lines = mmap(0, 4096, PROT_READ | PROT_WRITE, MAP_SHARED, file, 0);
    pthread_barrier_init(&all, NULL, many);
    nc_start();
    for (long i = 0; i < many; i++) pthread_create(&threads[i], NULL, work, (void *)i);
    for (long i = 0; i < many; i++) pthread_join(threads[i], NULL);
    nc_stop();
    return 0;
}
