/* Two transfers, each from one account of a ledger to all others, under an undo log. */
#include "novacrash.h"
#include "ledger.h"

static void transfer(volatile struct ledger *ledger, unsigned long from)
{
    for (unsigned long i = 0; i < ACCOUNTS; i++) {
        ledger->log[i].number = i;
        ledger->log[i].balance = ledger->accounts[i].balance;
        ledger->log[i].transfers = ledger->accounts[i].transfers;
        nc_clean(&ledger->log[i]);
    }
    nc_fence();
    ledger->count = ACCOUNTS;
    nc_clean(&ledger->count);
    nc_fence();
    for (unsigned long i = 0; i < ACCOUNTS; i++) {
        ledger->accounts[i].balance += i == from ? -(ACCOUNTS - 1UL) : 1;
        ledger->accounts[i].transfers++;
        nc_clean(&ledger->accounts[i]);
    }
    nc_fence();
    ledger->count = 0;
    nc_clean(&ledger->count);
    nc_fence();
}

int main(unsigned long hart, unsigned char *medium)
{
    for (unsigned long k = 1; k <= 2; k++) {
        nc_begin(k);
        transfer((volatile struct ledger *)medium, k);
        nc_end(k);
    }
    return 0;
}
