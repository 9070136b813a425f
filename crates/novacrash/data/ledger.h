/* Accounts of a cache line each, and an undo log with room for all of them. */
#define ACCOUNTS 8

struct account {
    unsigned long balance, transfers, rest[6];
};

struct entry {
    unsigned long number, balance, transfers, rest[5];
};

struct ledger {
    unsigned long count, rest[7]; /* the number of entries to undo */
    struct entry log[ACCOUNTS];
    struct account accounts[ACCOUNTS];
};
