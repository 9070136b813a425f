/* Threads that take one lock for each load of a shared cache line, which bench/harts times beside `novacrash run`.

   lock THREADS TURNS

   Each of one to eight threads makes so many turns: it takes the lock, reads a word that the threads share, and notes the read
   in a second one. It keeps no list, and has nothing else to do. Prints the turns of all threads together. */

#include <pthread.h>
#include <stdint.h>
#include <stdio.h>
#include <stdlib.h>

enum { MOST_THREADS = 8, LINES = 4, WORDS_OF_LINE = 8 };

static pthread_mutex_t lock = PTHREAD_MUTEX_INITIALIZER;
static volatile uint64_t lines[LINES * WORDS_OF_LINE];
static volatile uint64_t latest;
static long turns;

static void *load(void *unused) {
    uint64_t sum = 0;
    for (long turn = 0; turn < turns; turn++) {
        pthread_mutex_lock(&lock);
        sum += lines[turn % LINES * WORDS_OF_LINE];
        latest = turn % LINES;
        pthread_mutex_unlock(&lock);
    }
    return (void *)(uintptr_t)sum;
}

int main(int count, char **words) {
    long threads = count == 3 ? atol(words[1]) : 0;
    if (threads < 1 || threads > MOST_THREADS) {
        fprintf(stderr, "lock THREADS TURNS\n");
        return 2;
    }
    turns = atol(words[2]);
    pthread_t made[MOST_THREADS];
    for (long at = 0; at < threads; at++) {
        if (pthread_create(&made[at], NULL, load, NULL) != 0) {
            return 4;
        }
    }
    for (long at = 0; at < threads; at++) {
        pthread_join(made[at], NULL);
    }
    printf("turns %ld\n", threads * turns);
    return 0;
}
