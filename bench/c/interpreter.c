/* A plain interpreter of one hart, which bench/peers times beside `novacrash run` and `replay`.

   interpreter OBJECT MEDIUM STEPS CAPACITY [OUT]

   OBJECT is one that `novacrash asm` wrote, MEDIUM persistent memory at the start. It makes at most STEPS steps, with RV64I, A,
   FENCE and FENCE.I, but without the cache-block operations, and prints what `novacrash run` prints. Persistent memory
   is read and written through a write-back cache of CAPACITY cache lines, or as flat memory where that is 0. OUT gets what a power cut
   leaves of it. The formats, regions and traps are those of docs/FORMATS.md. */

#include <stdbool.h>
#include <stdint.h>
#include <stdio.h>
#include <stdlib.h>
#include <string.h>

enum {
    LINE = 64,
    MOST_LINES = 16384,
    MOST_EVENTS = 65536,
    TEXT_BASE = 0x10000,
    TEXT_SIZE = 0x10000,
    DATA_BASE = 0x100000,
    DATA_SIZE = 0x100000,
    PERSISTENT_BASE = 0x40000000,
    STACK_TOP = 0x200000,
    SETS = 8,
};

static const uint32_t NONE = UINT32_MAX;

static void fail(const char *reason, int status)
{
    fprintf(stderr, "%s\n", reason);
    exit(status);
}

static void *take(size_t count, size_t size)
{
    void *memory = calloc(count, size);
    if (memory == NULL)
        fail("memory", 4);
    return memory;
}

/* The cache. A resident cache line has a slot with its copy; the slots of each set stand in a list from the least recently used to the
   most recently used. The set of a cache line is its number modulo eight. */

struct slot {
    uint8_t bytes[LINE];
    uint32_t line;
    uint32_t older;
    uint32_t newer;
    bool dirty;
};

struct cache {
    uint32_t capacity;
    uint32_t resident;
    struct slot *slots;
    uint32_t slot_of[MOST_LINES];
    uint32_t oldest[SETS];
    uint32_t newest[SETS];
    uint8_t *medium;
};

static struct cache *new_cache(uint32_t capacity, uint8_t *medium)
{
    struct cache *cache = take(1, sizeof *cache);
    cache->capacity = capacity;
    cache->slots = take(capacity, sizeof *cache->slots);
    cache->medium = medium;
    memset(cache->slot_of, 0xff, sizeof cache->slot_of);
    memset(cache->oldest, 0xff, sizeof cache->oldest);
    memset(cache->newest, 0xff, sizeof cache->newest);
    return cache;
}

static void unlink_slot(struct cache *cache, uint32_t at)
{
    struct slot *slot = &cache->slots[at];
    uint32_t set = slot->line % SETS;
    if (slot->older == NONE)
        cache->oldest[set] = slot->newer;
    else
        cache->slots[slot->older].newer = slot->newer;
    if (slot->newer == NONE)
        cache->newest[set] = slot->older;
    else
        cache->slots[slot->newer].older = slot->older;
}

static void link_as_newest(struct cache *cache, uint32_t at)
{
    struct slot *slot = &cache->slots[at];
    uint32_t set = slot->line % SETS;
    slot->older = cache->newest[set];
    slot->newer = NONE;
    if (slot->older == NONE)
        cache->oldest[set] = at;
    else
        cache->slots[slot->older].newer = at;
    cache->newest[set] = at;
}

/* The slot that a new cache line of the set takes the place of: the oldest of the set, else of the lowest set that has one. */
static uint32_t victim(const struct cache *cache, uint32_t set)
{
    uint32_t at = cache->oldest[set];
    for (uint32_t other = 0; at == NONE; other++)
        at = cache->oldest[other];
    return at;
}

/* Writes a slot's cache line back where it is dirty, and drops it. */
static void evict(struct cache *cache, uint32_t at)
{
    struct slot *slot = &cache->slots[at];
    if (slot->dirty)
        memcpy(cache->medium + (size_t)slot->line * LINE, slot->bytes, LINE);
    unlink_slot(cache, at);
    cache->slot_of[slot->line] = NONE;
}

static uint32_t bring_in(struct cache *cache, uint32_t line)
{
    uint32_t at = cache->resident;
    if (cache->resident < cache->capacity) {
        cache->resident++;
    } else {
        at = victim(cache, line % SETS);
        evict(cache, at);
    }
    struct slot *slot = &cache->slots[at];
    memcpy(slot->bytes, cache->medium + (size_t)line * LINE, LINE);
    slot->line = line;
    slot->dirty = false;
    cache->slot_of[line] = at;
    link_as_newest(cache, at);
    return at;
}

/* The slot of a cache line, which is the most recently used of its set from then on. */
static struct slot *use(struct cache *cache, uint32_t line)
{
    uint32_t at = cache->slot_of[line];
    if (at == NONE) {
        at = bring_in(cache, line);
    } else if (cache->slots[at].newer != NONE) {
        unlink_slot(cache, at);
        link_as_newest(cache, at);
    }
    return &cache->slots[at];
}

/* The machine. */

enum status { RUNNING, EXITED, T1, T2, T3, T4, T5, T6, T7 };
enum event_kind { STORE, FENCE, BEGIN, END };

struct event {
    uint64_t value; /* of a store; of a mark its operation */
    uint32_t line;
    uint8_t offset;
    uint8_t width;
    uint8_t kind;
};

struct machine {
    uint64_t x[32];
    uint64_t pc;
    enum status status;
    uint8_t exit_code;
    uint64_t reserved; /* the cache line of an LR, counted from address 0; NO_LINE where there is none */
    uint8_t *text;
    uint8_t *fetched; /* the text as it was at the start or at the last FENCE.I */
    uint8_t *data;
    uint8_t *medium;
    size_t medium_size;
    struct cache *cache; /* NULL: flat memory */
    struct event *events;
    uint32_t event_count;
};

static const uint64_t NO_LINE = UINT64_MAX;

static void note(struct machine *m, struct event event)
{
    if (m->event_count == MOST_EVENTS)
        fail("refused G4", 2);
    m->events[m->event_count++] = event;
}

static bool is_persistent(const struct machine *m, uint64_t address)
{
    return address - PERSISTENT_BASE < m->medium_size;
}

/* The bytes of persistent memory from an offset on. */
static uint8_t *persistent(struct machine *m, uint64_t offset, bool stores)
{
    if (m->cache == NULL)
        return m->medium + offset;
    struct slot *slot = use(m->cache, offset / LINE);
    slot->dirty |= stores;
    return slot->bytes + offset % LINE;
}

/* The bytes of an access; NULL after a trap. An aligned access stays within its region and within its cache line. */
static uint8_t *access_bytes(struct machine *m, uint64_t address, unsigned width, bool stores)
{
    if ((address & (width - 1)) != 0) {
        m->status = T4;
        return NULL;
    }
    if (is_persistent(m, address))
        return persistent(m, address - PERSISTENT_BASE, stores);
    if (address - DATA_BASE < DATA_SIZE)
        return m->data + (address - DATA_BASE);
    if (address - TEXT_BASE < TEXT_SIZE)
        return m->text + (address - TEXT_BASE);
    m->status = T5;
    return NULL;
}

static uint64_t read_bytes(const uint8_t *bytes, unsigned width)
{
    uint64_t value = 0;
    switch (width) {
    case 1: return *bytes;
    case 2: memcpy(&value, bytes, 2); return value;
    case 4: memcpy(&value, bytes, 4); return value;
    default: memcpy(&value, bytes, 8); return value;
    }
}

static void write_bytes(uint8_t *bytes, unsigned width, uint64_t value)
{
    switch (width) {
    case 1: *bytes = value; break;
    case 2: memcpy(bytes, &value, 2); break;
    case 4: memcpy(bytes, &value, 4); break;
    default: memcpy(bytes, &value, 8); break;
    }
}

static void store(struct machine *m, uint64_t address, unsigned width, uint64_t value)
{
    uint8_t *bytes = access_bytes(m, address, width, true);
    if (bytes == NULL)
        return;
    write_bytes(bytes, width, value);
    if (is_persistent(m, address)) {
        uint64_t offset = address - PERSISTENT_BASE;
        uint64_t kept = width == 8 ? value : value & ((UINT64_C(1) << 8 * width) - 1);
        note(m, (struct event){.kind = STORE, .line = offset / LINE, .offset = offset % LINE, .width = width, .value = kept});
    }
}

static uint64_t sign_extended(uint64_t value, unsigned bits)
{
    return (uint64_t)((int64_t)(value << (64 - bits)) >> (64 - bits));
}

/* Fields of a word. */

static unsigned opcode_of(uint32_t word) { return word & 0x7f; }
static unsigned rd_of(uint32_t word) { return word >> 7 & 31; }
static unsigned funct3_of(uint32_t word) { return word >> 12 & 7; }
static unsigned rs1_of(uint32_t word) { return word >> 15 & 31; }
static unsigned rs2_of(uint32_t word) { return word >> 20 & 31; }
static unsigned funct7_of(uint32_t word) { return word >> 25; }
static uint64_t immediate_i(uint32_t word) { return (int64_t)((int32_t)word >> 20); }
static uint64_t immediate_u(uint32_t word) { return (int64_t)(int32_t)(word & 0xfffff000); }
static uint64_t immediate_s(uint32_t word) { return sign_extended(word >> 25 << 5 | (word >> 7 & 31), 12); }

static uint64_t immediate_b(uint32_t word)
{
    uint64_t bits = (word >> 31 & 1) << 12 | (word >> 7 & 1) << 11 | (word >> 25 & 63) << 5 | (word >> 8 & 15) << 1;
    return sign_extended(bits, 13);
}

static uint64_t immediate_j(uint32_t word)
{
    uint64_t bits = (word >> 31 & 1) << 20 | (word >> 12 & 255) << 12 | (word >> 20 & 1) << 11 | (word >> 21 & 1023) << 1;
    return sign_extended(bits, 21);
}

/* Instructions. Each returns where the next one stands, or sets a trap. */

static uint64_t set(struct machine *m, unsigned rd, uint64_t value)
{
    m->x[rd] = value;
    m->x[0] = 0;
    return m->pc + 4;
}

static uint64_t trap(struct machine *m, enum status status)
{
    m->status = status;
    return m->pc;
}

static uint64_t jump(struct machine *m, unsigned rd, uint64_t target)
{
    if (target % 4 != 0)
        return trap(m, T3);
    set(m, rd, m->pc + 4);
    return target;
}

static uint64_t branch(struct machine *m, uint32_t word)
{
    uint64_t a = m->x[rs1_of(word)], b = m->x[rs2_of(word)];
    bool taken;
    switch (funct3_of(word)) {
    case 0: taken = a == b; break;
    case 1: taken = a != b; break;
    case 4: taken = (int64_t)a < (int64_t)b; break;
    case 5: taken = (int64_t)a >= (int64_t)b; break;
    case 6: taken = a < b; break;
    case 7: taken = a >= b; break;
    default: return trap(m, T1);
    }
    if (!taken)
        return m->pc + 4;
    uint64_t target = m->pc + immediate_b(word);
    return target % 4 == 0 ? target : trap(m, T3);
}

static uint64_t load(struct machine *m, uint32_t word)
{
    unsigned funct3 = funct3_of(word), width = 1u << (funct3 & 3);
    if (funct3 == 7)
        return trap(m, T1);
    const uint8_t *bytes = access_bytes(m, m->x[rs1_of(word)] + immediate_i(word), width, false);
    if (bytes == NULL)
        return m->pc;
    uint64_t value = read_bytes(bytes, width);
    return set(m, rd_of(word), funct3 < 4 ? sign_extended(value, 8 * width) : value);
}

static uint64_t store_word(struct machine *m, uint32_t word)
{
    if (funct3_of(word) > 3)
        return trap(m, T1);
    store(m, m->x[rs1_of(word)] + immediate_s(word), 1u << funct3_of(word), m->x[rs2_of(word)]);
    return m->status == RUNNING ? m->pc + 4 : m->pc;
}

/* What ADD to AND make of two numbers; `other` chooses SUB and SRA. */
static uint64_t operate(unsigned funct3, bool other, uint64_t a, uint64_t b)
{
    switch (funct3) {
    case 0: return other ? a - b : a + b;
    case 1: return a << (b & 63);
    case 2: return (int64_t)a < (int64_t)b;
    case 3: return a < b;
    case 4: return a ^ b;
    case 5: return other ? (uint64_t)((int64_t)a >> (b & 63)) : a >> (b & 63);
    case 6: return a | b;
    default: return a & b;
    }
}

/* The same of words. */
static uint64_t operate_words(unsigned funct3, bool other, uint32_t a, uint32_t b)
{
    uint32_t value;
    switch (funct3) {
    case 0: value = other ? a - b : a + b; break;
    case 1: value = a << (b & 31); break;
    default: value = other ? (uint32_t)((int32_t)a >> (b & 31)) : a >> (b & 31); break;
    }
    return sign_extended(value, 32);
}

static uint64_t with_immediate(struct machine *m, uint32_t word)
{
    unsigned funct3 = funct3_of(word), funct6 = word >> 26;
    bool other = funct3 == 5 && funct6 == 16;
    if ((funct3 == 1 || funct3 == 5) && funct6 != 0 && !other)
        return trap(m, T1);
    return set(m, rd_of(word), operate(funct3, other, m->x[rs1_of(word)], immediate_i(word)));
}

static uint64_t with_immediate_words(struct machine *m, uint32_t word)
{
    unsigned funct3 = funct3_of(word), funct7 = funct7_of(word);
    bool other = funct3 == 5 && funct7 == 32;
    if (funct3 != 0 && ((funct3 != 1 && funct3 != 5) || (funct7 != 0 && !other)))
        return trap(m, T1);
    return set(m, rd_of(word), operate_words(funct3, other, m->x[rs1_of(word)], immediate_i(word)));
}

static uint64_t with_registers(struct machine *m, uint32_t word)
{
    unsigned funct3 = funct3_of(word), funct7 = funct7_of(word);
    bool other = (funct3 == 0 || funct3 == 5) && funct7 == 32;
    if (funct7 != 0 && !other)
        return trap(m, T1);
    return set(m, rd_of(word), operate(funct3, other, m->x[rs1_of(word)], m->x[rs2_of(word)]));
}

static uint64_t with_registers_words(struct machine *m, uint32_t word)
{
    unsigned funct3 = funct3_of(word), funct7 = funct7_of(word);
    bool other = (funct3 == 0 || funct3 == 5) && funct7 == 32;
    if ((funct3 != 0 && funct3 != 1 && funct3 != 5) || (funct7 != 0 && !other))
        return trap(m, T1);
    return set(m, rd_of(word), operate_words(funct3, other, m->x[rs1_of(word)], m->x[rs2_of(word)]));
}

static uint64_t fence(struct machine *m, uint32_t word)
{
    switch (funct3_of(word)) {
    case 0:
        if (word >> 24 & 1)
            note(m, (struct event){.kind = FENCE});
        return m->pc + 4;
    case 1:
        memcpy(m->fetched, m->text, TEXT_SIZE);
        return m->pc + 4;
    default:
        return trap(m, T1);
    }
}

static uint64_t environment(struct machine *m, uint32_t word)
{
    if (word == 0x00100073)
        return trap(m, T7);
    if (word != 0x00000073)
        return trap(m, T1);
    switch (m->x[17]) {
    case 93:
        m->status = EXITED;
        m->exit_code = m->x[10];
        return m->pc + 4;
    case 2001:
    case 2002:
        note(m, (struct event){.kind = m->x[17] == 2001 ? BEGIN : END, .value = m->x[10]});
        return m->pc + 4;
    default:
        return trap(m, T6);
    }
}

/* What an AMO writes, of what it read (a) and its operand (b), both sign-extended. */
static bool combine(unsigned funct5, uint64_t a, uint64_t b, uint64_t *value)
{
    switch (funct5) {
    case 0x00: *value = a + b; return true;
    case 0x01: *value = b; return true;
    case 0x04: *value = a ^ b; return true;
    case 0x08: *value = a | b; return true;
    case 0x0c: *value = a & b; return true;
    case 0x10: *value = (int64_t)a < (int64_t)b ? a : b; return true;
    case 0x14: *value = (int64_t)a > (int64_t)b ? a : b; return true;
    case 0x18: *value = a < b ? a : b; return true;
    case 0x1c: *value = a > b ? a : b; return true;
    default: return false;
    }
}

static uint64_t store_conditional(struct machine *m, uint32_t word, unsigned width)
{
    uint64_t address = m->x[rs1_of(word)];
    bool stands = m->reserved == address / LINE;
    if (access_bytes(m, address, width, stands) == NULL)
        return m->pc;
    m->reserved = NO_LINE;
    if (stands)
        store(m, address, width, m->x[rs2_of(word)]);
    return set(m, rd_of(word), !stands);
}

static uint64_t atomic(struct machine *m, uint32_t word)
{
    unsigned funct5 = word >> 27, width = 1u << funct3_of(word);
    uint64_t address = m->x[rs1_of(word)], written;
    bool reserves = funct5 == 2 && rs2_of(word) == 0;
    if ((width != 4 && width != 8) || (funct5 != 3 && !reserves && !combine(funct5, 0, 0, &written)))
        return trap(m, T1);
    if (funct5 == 3)
        return store_conditional(m, word, width);
    const uint8_t *bytes = access_bytes(m, address, width, !reserves);
    if (bytes == NULL)
        return m->pc;
    uint64_t found = sign_extended(read_bytes(bytes, width), 8 * width);
    if (reserves) {
        m->reserved = address / LINE;
    } else {
        combine(funct5, found, sign_extended(m->x[rs2_of(word)], 8 * width), &written);
        store(m, address, width, written);
    }
    return set(m, rd_of(word), found);
}

static uint64_t execute(struct machine *m, uint32_t word)
{
    switch (opcode_of(word)) {
    case 0x03: return load(m, word);
    case 0x0f: return fence(m, word);
    case 0x13: return with_immediate(m, word);
    case 0x17: return set(m, rd_of(word), m->pc + immediate_u(word));
    case 0x1b: return with_immediate_words(m, word);
    case 0x23: return store_word(m, word);
    case 0x2f: return atomic(m, word);
    case 0x33: return with_registers(m, word);
    case 0x37: return set(m, rd_of(word), immediate_u(word));
    case 0x3b: return with_registers_words(m, word);
    case 0x63: return branch(m, word);
    case 0x67:
        if (funct3_of(word) != 0)
            return trap(m, T1);
        return jump(m, rd_of(word), (m->x[rs1_of(word)] + immediate_i(word)) & ~UINT64_C(1));
    case 0x6f: return jump(m, rd_of(word), m->pc + immediate_j(word));
    case 0x73: return environment(m, word);
    default: return trap(m, T1);
    }
}

static void step(struct machine *m)
{
    if (m->pc - TEXT_BASE >= TEXT_SIZE) {
        m->status = T2;
        return;
    }
    uint32_t word;
    memcpy(&word, m->fetched + (m->pc - TEXT_BASE), sizeof word);
    m->pc = execute(m, word);
}

/* The program. */

static uint8_t *read_file(const char *name, size_t *size)
{
    FILE *file = fopen(name, "rb");
    uint8_t *bytes = take(1, 1 << 22);
    if (file == NULL)
        fail("file", 5);
    *size = fread(bytes, 1, 1 << 22, file);
    fclose(file);
    return bytes;
}

static void load_object(struct machine *m, const char *name)
{
    size_t size;
    uint8_t *object = read_file(name, &size);
    if (size < 16 || memcmp(object, "RVXPROG1", 8) != 0)
        fail("no object", 2);
    uint64_t text = read_bytes(object + 8, 4), data = read_bytes(object + 12, 4);
    if (text > TEXT_SIZE || data > DATA_SIZE || size != 16 + text + data)
        fail("no object", 2);
    m->text = take(1, TEXT_SIZE);
    m->fetched = take(1, TEXT_SIZE);
    m->data = take(1, DATA_SIZE);
    memcpy(m->text, object + 16, text);
    memcpy(m->fetched, m->text, TEXT_SIZE);
    memcpy(m->data, object + 16 + text, data);
    free(object);
}

static void print(const struct machine *m)
{
    printf("h0 ");
    if (m->status == RUNNING)
        printf("running");
    else if (m->status == EXITED)
        printf("exit %u", m->exit_code);
    else
        printf("trap T%d", m->status - T1 + 1);
    printf(" pc=0x%llx", (unsigned long long)m->pc);
    for (int at = 1; at < 32; at++)
        if (m->x[at] != 0)
            printf(" x%d=0x%llx", at, (unsigned long long)m->x[at]);
    printf("\nevents %u\n", m->event_count);
}

static void write_medium(const struct machine *m, const char *name)
{
    FILE *file = fopen(name, "wb");
    if (file == NULL || fwrite(m->medium, 1, m->medium_size, file) != m->medium_size || fclose(file) != 0)
        fail("file", 5);
}

int main(int count, char **words)
{
    if (count < 5)
        fail("wanted: interpreter OBJECT MEDIUM STEPS CAPACITY [OUT]", 2);
    struct machine m = {.pc = TEXT_BASE, .reserved = NO_LINE};
    load_object(&m, words[1]);
    m.medium = read_file(words[2], &m.medium_size);
    if (m.medium_size % LINE != 0 || m.medium_size > MOST_LINES * LINE)
        fail("refused M3", 2);
    uint64_t steps = strtoull(words[3], NULL, 10);
    uint32_t capacity = strtoul(words[4], NULL, 10);
    m.cache = capacity == 0 ? NULL : new_cache(capacity, m.medium);
    m.events = take(MOST_EVENTS, sizeof *m.events);
    m.x[2] = STACK_TOP;
    m.x[11] = PERSISTENT_BASE;
    for (uint64_t made = 0; made < steps && m.status == RUNNING; made++)
        step(&m);
    print(&m);
    if (count > 5)
        write_medium(&m, words[5]);
    return 0;
}
