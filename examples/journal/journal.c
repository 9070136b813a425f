/* A page journal, by which a page of 64 cache lines is changed in place, as journal.s; with -DRECOVERY its recovery. */
#include "novacrash.h"

typedef unsigned long u64;

/* How many lines recovery puts back: all of the page. */
enum { LINES = 64, WORDS = 8, RESTORED = 64 };

struct line {
    _Alignas(LINE_SIZE) volatile u64 words[WORDS];
};

/* The mark is 1 while the journal is in force, and has a line of its own. The journal has a copy of each of the page's lines, as it
 * was before. */
struct store {
    _Alignas(LINE_SIZE) volatile u64 mark;
    _Alignas(4096) struct line page[LINES];
    struct line journal[LINES];
};

#ifndef RECOVERY

/* Each of the four steps is durable before the next begins: the copy of the page, the mark, the page, and the mark's zero. */
static void write(struct store *store, u64 number)
{
    for (u64 line = 0; line < LINES; line++) {
        for (u64 word = 0; word < WORDS; word++)
            store->journal[line].words[word] = store->page[line].words[word];
        nc_clean(&store->journal[line]);    /* the copy's line */
    }
    nc_fence();                             /* now the copy of the page is durable */
    store->mark = 1;                        /* the journal is in force */
    nc_clean(&store->mark);                 /* the mark's line */
    nc_fence();                             /* now the mark is durable, and the page may change */
    for (u64 line = 0; line < LINES; line++) {
        for (u64 word = 0; word < WORDS; word++)
            store->page[line].words[word] = (number << 12) + 64 * line + 8 * word;
        nc_clean(&store->page[line]);       /* the page's line */
    }
    nc_fence();                             /* now the page is durable */
    store->mark = 0;                        /* the operation commits by this store */
    nc_clean(&store->mark);                 /* the mark's line, with its zero */
    nc_fence();                             /* now the operation is durable, and may be acknowledged */
}

/* Operation n, for n from 1 to 2, writes into each word of the page 4096 n and the word's place. */
int main(u64 hart, unsigned char *medium)
{
    (void)hart;
    for (u64 operation = 1; operation <= 2; operation++) {
        nc_begin(operation);
        write((struct store *)medium, operation);
        nc_end(operation);
    }
    return 0;
}

#else

/* Where the journal is in force puts the page's old lines back and discards the journal. Answers the whole page. */
int main(u64 hart, unsigned char *medium)
{
    (void)hart;
    struct store *store = (struct store *)medium;
    if (store->mark != 0) {
        for (u64 line = 0; line < RESTORED; line++) {
            for (u64 word = 0; word < WORDS; word++)
                store->page[line].words[word] = store->journal[line].words[word];
            nc_clean(&store->page[line]);
        }
        nc_fence();    /* what was put back is durable before the journal is discarded */
        store->mark = 0;
        nc_clean(&store->mark);
        nc_fence();
    }
    static u64 answer[LINES * WORDS];
    for (u64 line = 0; line < LINES; line++)
        for (u64 word = 0; word < WORDS; word++)
            answer[WORDS * line + word] = store->page[line].words[word];
    nc_answer(answer, sizeof answer);
}

#endif
