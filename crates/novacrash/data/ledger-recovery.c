/* The recovery of ledger.c: puts back what its log has, and answers the accounts. -DEARLY_CLEAR leaves out the fence before the log is emptied. */
#include "novacrash.h"
#include "ledger.h"

static unsigned long answer[2 * ACCOUNTS];

int main(unsigned long hart, unsigned char *medium)
{
    volatile struct ledger *ledger = (volatile struct ledger *)medium;
    unsigned long count = ledger->count;
    for (unsigned long k = 0; k < count; k++) {
        volatile struct account *account = &ledger->accounts[ledger->log[k].number];
        account->balance = ledger->log[k].balance;
        account->transfers = ledger->log[k].transfers;
        nc_clean(account);
    }
    if (count != 0) {
#ifndef EARLY_CLEAR
        nc_fence();
#endif
        ledger->count = 0;
        nc_clean(&ledger->count);
        nc_fence();
    }
    for (unsigned long i = 0; i < ACCOUNTS; i++) {
        answer[2 * i] = ledger->accounts[i].balance;
        answer[2 * i + 1] = ledger->accounts[i].transfers;
    }
    register unsigned long a1 __asm__("a1") = (unsigned long)answer;
    register unsigned long a2 __asm__("a2") = sizeof answer;
    register unsigned long a0 __asm__("a0") = 0;
    register unsigned long a7 __asm__("a7") = 93;
    __asm__ volatile("ecall" : : "r"(a0), "r"(a1), "r"(a2), "r"(a7) : "memory");
    __builtin_unreachable();
}
