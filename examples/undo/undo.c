/* An undo log: transfers between two accounts, as undo.s; with -DRECOVERY its recovery. */
#include "novacrash.h"

typedef unsigned long u64;

enum { ACCOUNTS = 2 };

/* An account has a cache line of its own. */
struct account {
    _Alignas(LINE_SIZE) volatile u64 balance;
};

/* An entry of the log: an account's offset on the medium, and its old value. */
struct entry {
    volatile u64 offset;
    volatile u64 old;
};

/* The count says how many entries are in force, 0 while no transfer is under way. It has a line of its own, and so has the
 * log. */
struct bank {
    _Alignas(LINE_SIZE) volatile u64 count;
    _Alignas(LINE_SIZE) struct entry log[ACCOUNTS];
    struct account accounts[ACCOUNTS];
};

#ifndef RECOVERY

/* Each of the four steps is durable before the next begins: the old values, the count, the accounts, and the count's zero. */
static void transfer(struct bank *bank, u64 amount)
{
    struct account *from = &bank->accounts[0], *to = &bank->accounts[1];
    u64 old_from = from->balance, old_to = to->balance;
    bank->log[0].offset = (u64)from - (u64)bank;
    bank->log[0].old = old_from;
    bank->log[1].offset = (u64)to - (u64)bank;
    bank->log[1].old = old_to;
    nc_clean(bank->log);                /* the log's line */
    nc_fence();                         /* now both entries are durable */
    bank->count = ACCOUNTS;             /* they are in force */
    nc_clean(&bank->count);             /* the count's line */
    nc_fence();                         /* now the log is in force, and the accounts may change */
    from->balance = old_from - amount;
    to->balance = old_to + amount;
    nc_clean(from);                     /* the first account's line */
    nc_clean(to);                       /* the second account's line */
    nc_fence();                         /* now both accounts are durable */
    bank->count = 0;                    /* the transfer commits by this store */
    nc_clean(&bank->count);             /* the count's line, with its zero */
    nc_fence();                         /* now the transfer is durable, and may be acknowledged */
}

/* Operation n moves n from the first account to the second one, for n from 1 to 3. Each holds 100 at first. */
int main(u64 hart, unsigned char *medium)
{
    (void)hart;
    struct bank *bank = (struct bank *)medium;
    bank->accounts[0].balance = 100;
    bank->accounts[1].balance = 100;
    nc_clean(&bank->accounts[0]);
    nc_clean(&bank->accounts[1]);
    nc_fence();
    for (u64 operation = 1; operation <= 3; operation++) {
        nc_begin(operation);
        transfer(bank, operation);
        nc_end(operation);
    }
    return 0;
}

#else

/* Puts the old values back that are in force, the newest first, discards the log, and answers the two accounts. Exits with
 * code 1 where they don't hold 200 together. */
int main(u64 hart, unsigned char *medium)
{
    (void)hart;
    struct bank *bank = (struct bank *)medium;
    for (u64 left = bank->count; left > 0; left--) {
        struct account *account = (struct account *)(medium + bank->log[left - 1].offset);
        account->balance = bank->log[left - 1].old;
        nc_clean(account);
    }
    nc_fence();    /* what was put back is durable before the log is discarded */
    bank->count = 0;
    nc_clean(&bank->count);
    nc_fence();
    static u64 answer[ACCOUNTS];
    answer[0] = bank->accounts[0].balance;
    answer[1] = bank->accounts[1].balance;
    if (answer[0] + answer[1] != 200)
        return 1;
    nc_answer(answer, sizeof answer);
}

#endif
