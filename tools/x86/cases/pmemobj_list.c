/* SPDX-License-Identifier: Apache-2.0
 *
 * A list in a pool of libpmemobj. pmemobj_list FILE create makes the pool, pmemobj_list FILE push N pushes N nodes in transactions,
 * and pmemobj_list FILE show, the recovery, prints the values: the library rolls back what was under way when it opens the pool.
 * There are no marks: each transaction is an operation, or each call of push. -DWITH_MARKS has some, for the second tracer.
 * -DMISSING_ADD: the sum isn't added to the transaction, so a power cut may leave it changed where the rest is rolled back.
 */
#include <libpmemobj.h>
#include <stdio.h>
#include <stdlib.h>
#include <string.h>

#ifdef WITH_MARKS
#include "novacrash_marks.h"
#else
#define nc_begin(operation)
#define nc_end(operation)
#define nc_stop()
#endif

POBJ_LAYOUT_BEGIN(list);
POBJ_LAYOUT_ROOT(list, struct root);
POBJ_LAYOUT_TOID(list, struct node);
POBJ_LAYOUT_END(list);

struct root { TOID(struct node) head; uint64_t count, sum; };
struct node { TOID(struct node) next; uint64_t value, check; };

__attribute__((noinline)) static void push(PMEMobjpool *pool, uint64_t value)
{
    TOID(struct root) root = POBJ_ROOT(pool, struct root);
    TX_BEGIN(pool) {
        TOID(struct node) node = TX_NEW(struct node);
        D_RW(node)->value = value;
        D_RW(node)->check = ~value;
        D_RW(node)->next = D_RO(root)->head;
#ifdef MISSING_ADD
        TX_ADD_FIELD(root, head);
        TX_ADD_FIELD(root, count);
#else
        TX_ADD(root);
#endif
        D_RW(root)->head = node;
        D_RW(root)->count++;
        D_RW(root)->sum += value; /* the sum */
    } TX_END
}

/* Prints the values, and gives another number than 0 where the list contradicts itself. */
static int show(PMEMobjpool *pool)
{
    TOID(struct root) root = POBJ_ROOT(pool, struct root);
    TOID(struct node) node;
    uint64_t count = 0, sum = 0;
    for (node = D_RO(root)->head; !TOID_IS_NULL(node); node = D_RO(node)->next) {
        if (D_RO(node)->check != ~D_RO(node)->value) return 3;
        printf("%lu\n", D_RO(node)->value);
        sum += D_RO(node)->value;
        count++;
    }
    return count == D_RO(root)->count && sum == D_RO(root)->sum ? 0 : 4;
}

int main(int count, char **words)
{
    if (count < 3) return 2;
    int creates = !strcmp(words[2], "create");
    PMEMobjpool *pool = creates ? pmemobj_create(words[1], POBJ_LAYOUT_NAME(list), PMEMOBJ_MIN_POOL, 0644)
                                : pmemobj_open(words[1], POBJ_LAYOUT_NAME(list));
    if (!pool) {
        fprintf(stderr, "%s\n", pmemobj_errormsg());
        return 2;
    }
    if (!strcmp(words[2], "show")) return show(pool);
    if (creates) push(pool, 1);
    for (int i = 1; !creates && i <= atoi(words[3]); i++) {
        nc_begin(i);
        push(pool, 100 + i);
        nc_end(i);
    }
    nc_stop();
    pmemobj_close(pool);
    return 0;
}
