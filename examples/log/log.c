/* A log whose records count by their checksum, as log.s; with -DRECOVERY its recovery. */
#include "novacrash.h"

typedef unsigned long u64;

enum { WORDS = 14 };

/* How many words of payload the checksum covers: all of them. */
enum { COVERED = 14 };

/* A record has two cache lines, which may be written back in either order: until both are there the checksum is wrong. */
struct record {
    _Alignas(LINE_SIZE) volatile u64 number;
    volatile u64 checksum;
    volatile u64 payload[WORDS];
};

/* Begins with the number; then, for each word, 31 times what it was, and the word. */
static u64 checksum_of(const struct record *record)
{
    u64 sum = record->number;
    for (u64 word = 0; word < COVERED; word++)
        sum = (sum << 5) - sum + record->payload[word];
    return sum;
}

#ifndef RECOVERY

/* Appends a record, whose words count up from `first`. */
static void append(struct record *record, u64 number, u64 first)
{
    record->number = number;
    for (u64 word = 0; word < WORDS; word++)
        record->payload[word] = first + word;
    record->checksum = checksum_of(record);    /* by which the record counts */
    nc_clean(record);                          /* the record's first line */
    nc_clean(&record->payload[WORDS - 1]);     /* the record's second line */
    nc_fence();                                /* now the append is durable, and may be acknowledged */
}

/* Appends three records, as operations 1 to 3; record n is the n-th of the medium. */
int main(u64 hart, unsigned char *medium)
{
    (void)hart;
    struct record *record = (struct record *)medium;
    for (u64 operation = 1; operation <= 3; operation++) {
        nc_begin(operation);
        append(record++, operation, (operation << 8) + 2);
        nc_end(operation);
    }
    return 0;
}

#else

enum { MOST = 8 };

/* Answers the payloads of the records that count, in order. */
int main(u64 hart, unsigned char *medium)
{
    (void)hart;
    static u64 answer[MOST * WORDS];
    u64 length = 0;
    struct record *record = (struct record *)medium;
    for (u64 number = 1; number <= MOST; number++, record++) {
        if (record->number != number)
            break;
        if (record->checksum != checksum_of(record)) break;    /* a torn record ends the log */
        for (u64 word = 0; word < WORDS; word++)
            answer[length++] = record->payload[word];
    }
    nc_answer(answer, 8 * length);
}

#endif
