/* SPDX-License-Identifier: Apache-2.0
 *
 * Drives PMDK's example maps, which Debian's package libpmemobj-dev has, as they stand.
 *     pmdk_maps TYPE FILE create [KEY ..]     makes a pool with a map, and inserts the keys
 *     pmdk_maps TYPE FILE change +KEY|-KEY .. opens it, inserts or removes each key
 *     pmdk_maps TYPE FILE show                opens it, and prints its keys upwards: the recovery. Another status than 0 means that
 *                                             the map contradicts itself
 */
#include <fcntl.h>
#include <stdio.h>
#include <stdlib.h>
#include <string.h>
#include <unistd.h>
#include <libpmemobj.h>
#include "hashmap.h"
#include "map.h"
#include "map_btree.h"
#include "map_ctree.h"
#include "map_hashmap_atomic.h"
#include "map_hashmap_rp.h"
#include "map_hashmap_tx.h"
#include "map_rbtree.h"
#include "map_rtree.h"
#include "map_skiplist.h"

#define MOST_KEYS 4096
#define TYPE_OF_VALUE 4096

POBJ_LAYOUT_BEGIN(maps);
POBJ_LAYOUT_ROOT(maps, struct root);
POBJ_LAYOUT_END(maps);

/* All keys have the one value: ctree takes no null, and the others don't mind. */
struct root { TOID(struct map) map; PMEMoid value; };

static uint64_t keys[MOST_KEYS];
static size_t key_count;

static const struct map_ops *type_of(const char *name)
{
    const struct { const char *name; const struct map_ops *ops; } types[] = {
        { "btree", MAP_BTREE }, { "ctree", MAP_CTREE }, { "rbtree", MAP_RBTREE }, { "rtree", MAP_RTREE }, { "skiplist", MAP_SKIPLIST },
        { "hashmap_atomic", MAP_HASHMAP_ATOMIC }, { "hashmap_tx", MAP_HASHMAP_TX }, { "hashmap_rp", MAP_HASHMAP_RP },
    };
    for (size_t i = 0; i < sizeof types / sizeof *types; i++)
        if (!strcmp(types[i].name, name)) return types[i].ops;
    exit(64);
}

/* The map mends itself, and hashmap_atomic prints whether it did, which is no part of what it holds. */
static int init_silently(struct map_ctx *context, TOID(struct map) map)
{
    fflush(stdout);
    int kept = dup(1), null = open("/dev/null", O_WRONLY);
    dup2(null, 1);
    int status = context->ops->init ? map_init(context, map) : 0;
    fflush(stdout);
    dup2(kept, 1);
    return status;
}

static int collect(uint64_t key, PMEMoid value, void *unused)
{
    if (key_count == MOST_KEYS) exit(65);
    keys[key_count++] = key;
    return 0;
}

static int by_number(const void *one, const void *other)
{
    uint64_t a = *(const uint64_t *)one, b = *(const uint64_t *)other;
    return (a > b) - (a < b);
}

static int show(struct map_ctx *context, TOID(struct map) map)
{
    if (context->ops != MAP_RTREE) map_foreach(context, map, collect, NULL);
    else /* its walk gives parts of keys */
        for (uint64_t key = 0; key < 256; key++)
            if (map_lookup(context, map, key)) collect(key, OID_NULL, NULL);
    qsort(keys, key_count, sizeof *keys, by_number);
    for (size_t i = 0; i < key_count; i++) {
        if (i && keys[i] == keys[i - 1]) return 66;
        if (!map_lookup(context, map, keys[i])) return 67;
        printf("%s%lu", i ? " " : "", keys[i]);
    }
    if (context->ops->count && map_count(context, map) != key_count) return 68;
    puts("");
    return 0;
}

int main(int count, char **words)
{
    if (count < 4) return 64;
    int creates = !strcmp(words[3], "create");
    PMEMobjpool *pool = creates ? pmemobj_create(words[2], POBJ_LAYOUT_NAME(maps), 2 * PMEMOBJ_MIN_POOL, 0644)
                                : pmemobj_open(words[2], POBJ_LAYOUT_NAME(maps));
    if (!pool) {
        fprintf(stderr, "%s\n", pmemobj_errormsg());
        return 69;
    }
    struct map_ctx *context = map_ctx_init(type_of(words[1]), pool);
    TOID(struct root) root = POBJ_ROOT(pool, struct root);
    struct hashmap_args arguments = { 0 };
    if (creates && pmemobj_alloc(pool, &D_RW(root)->value, 64, TYPE_OF_VALUE, NULL, NULL)) return 70;
    if (creates && map_create(context, &D_RW(root)->map, &arguments)) return 70;
    TOID(struct map) map = D_RO(root)->map;
    if (map_check(context, map) || init_silently(context, map)) return 71;
    if (!strcmp(words[3], "show")) return show(context, map);
    for (int i = 4; i < count; i++) {
        uint64_t key = strtoul(words[i] + !creates, NULL, 10);
        if (words[i][0] == '-') map_remove(context, map, key);
        else if (map_insert(context, map, key, D_RO(root)->value)) return 72;
    }
    map_ctx_free(context);
    pmemobj_close(pool);
    return 0;
}
