/* A plain check of a moment, image by image, which bench/peers and bench/verdicts time and compare with `novacrash check`.

   verdict PLAN MEDIUM TRACE MOMENT

   PLAN and MEDIUM are those of `check`, TRACE is what `novacrash trace` prints of the run; of its lines the hart and what it did are
   read. It makes every crash image of the moment, recovers the logs by docs/FORMATS.md, compares them with what the plan allows, and
   prints what `check --moments MOMENT` prints. Where MOMENT is `each` it judges all moments of the run, each by itself, and prints a
   line for each. A moment with over 65,536 images isn't judged: `too many` stands for it. */

#include <stdbool.h>
#include <stdint.h>
#include <stdio.h>
#include <stdlib.h>
#include <string.h>

enum {
    LINE = 64,
    MOST_LINES = 16384,
    MOST_EVENTS = 65536,
    MOST_IMAGES = 65536,
    MOST_HARTS = 8,
    MOST_INODES = 64,
    MOST_PAGES = 240,
    MOST_OPERATIONS = 65536,
    PAGE_SIZE = 4096,
    FIRST_PAGE = 16384,
    FIRST_JOURNAL = 8192,
    ENTRY_HEAD = 24, /* the bytes of an entry before its name */
};

static void fail(const char *reason)
{
    fprintf(stderr, "%s\n", reason);
    exit(2);
}

static uint64_t number_at(const uint8_t *bytes)
{
    uint64_t value;
    memcpy(&value, bytes, sizeof value);
    return value;
}

/* An entry of a log, as its bytes stand there: the kind, the length of the name, six zeros, the operation, the value, the name. */
struct entry {
    uint8_t bytes[ENTRY_HEAD + 96];
};

static bool is_entry(const struct entry *entry, const uint8_t *bytes)
{
    return memcmp(entry->bytes, bytes, ENTRY_HEAD + entry->bytes[1]) == 0;
}

/* Recovery. */

struct volume {
    const uint8_t *image;
    size_t lines;
    unsigned inodes, pages, journals;
    unsigned entry_size, page_entries, longest_name;
    uint64_t tails[MOST_INODES];
    uint32_t counts[MOST_INODES];
    uint32_t entries[MOST_INODES][MOST_PAGES * 63]; /* of each inode the offsets of its log's entries */
};

/* The number N of a code, or 0 where there is no fault. */
typedef int code;

static code read_superblock(struct volume *v)
{
    bool second = memcmp(v->image, "NOVALOG2", 8) == 0;
    if (!second && memcmp(v->image, "NOVALOG1", 8) != 0)
        return 1;
    uint64_t inodes = number_at(v->image + 8), pages = number_at(v->image + 16), journals = number_at(v->image + 24);
    if (inodes < 1 || inodes > MOST_INODES || pages < inodes || pages > MOST_PAGES || journals < 1 || journals > 8)
        return 2;
    if (FIRST_PAGE + pages * PAGE_SIZE > v->lines * LINE)
        return 2;
    v->inodes = inodes;
    v->pages = pages;
    v->journals = journals;
    v->entry_size = second ? 128 : 64;
    v->page_entries = second ? 31 : 63;
    v->longest_name = second ? 96 : 32;
    return 0;
}

static const uint8_t *inode_at(const struct volume *v, unsigned n)
{
    return v->image + LINE * (n + 1);
}

/* Takes the old tails of a journal's pending records, the oldest record last, so that it is the one that counts. */
static code replay_journal(struct volume *v, unsigned j)
{
    const uint8_t *journal = v->image + FIRST_JOURNAL + 512 * j;
    uint64_t head = number_at(journal), tail = number_at(journal + 8);
    if (tail < head || tail - head > 4)
        return 3;
    while (tail-- > head) {
        const uint8_t *record = journal + LINE * (1 + tail % 4);
        if (number_at(record) >= v->inodes)
            return 4;
        v->tails[number_at(record)] = number_at(record + 8);
    }
    return 0;
}

static bool is_page(const struct volume *v, uint64_t offset)
{
    return offset >= FIRST_PAGE && offset < FIRST_PAGE + (uint64_t)PAGE_SIZE * v->pages && offset % PAGE_SIZE == 0;
}

/* Notes the offsets of a page's entries before the tail. True where the tail stands in this page. */
static bool walk_page(struct volume *v, unsigned n, uint64_t page)
{
    for (unsigned k = 0; k < v->page_entries; k++) {
        uint64_t at = page + k * v->entry_size;
        if (at == v->tails[n])
            return true;
        v->entries[n][v->counts[n]++] = at;
    }
    return page + v->page_entries * v->entry_size == v->tails[n];
}

static code walk_log(struct volume *v, unsigned n)
{
    uint64_t page = number_at(inode_at(v, n));
    v->counts[n] = 0;
    for (unsigned entered = 1; !walk_page(v, n, page); entered++) {
        page = number_at(v->image + page + v->page_entries * v->entry_size);
        if (page == 0)
            return 6;
        if (!is_page(v, page) || entered == v->pages)
            return 7;
    }
    return 0;
}

static code check_entry(const struct volume *v, const uint8_t *entry)
{
    static const uint8_t zeros[6];
    unsigned kind = entry[0], length = entry[1];
    if (kind < 1 || kind > 3)
        return 8;
    bool fits = kind == 1 ? length == 0 : length >= 1 && length <= v->longest_name;
    return fits && memcmp(entry + 2, zeros, sizeof zeros) == 0 ? 0 : 9;
}

static code read_log(struct volume *v, unsigned n)
{
    code fault = walk_log(v, n);
    for (uint32_t k = 0; k < v->counts[n] && fault == 0; k++)
        fault = check_entry(v, v->image + v->entries[n][k]);
    return fault;
}

/* The volume of an image, or the first fault. */
static code recover(struct volume *v)
{
    code fault = read_superblock(v);
    if (fault != 0)
        return fault;
    for (unsigned n = 0; n < v->inodes; n++)
        v->tails[n] = number_at(inode_at(v, n) + 8);
    for (unsigned j = 0; j < v->journals && fault == 0; j++)
        fault = replay_journal(v, j);
    for (unsigned n = 0; n < v->inodes && fault == 0; n++)
        fault = is_page(v, number_at(inode_at(v, n))) ? 0 : 5;
    for (unsigned n = 0; n < v->inodes && fault == 0; n++)
        fault = read_log(v, n);
    return fault;
}

/* The plan and the trace. */

enum state { NOT_BEGUN, PENDING, ENDED };

struct operation {
    uint64_t number;
    unsigned count; /* of its entries, one or two */
    unsigned inodes[2];
    struct entry entries[2];
    enum state state; /* by the marks up to the one that is looked at */
    unsigned hart;    /* the one that began it */
};

enum kind { STORE, CLEAN, FENCE, BEGIN, END, KINDS };

struct event {
    enum kind kind;
    unsigned hart;
    uint32_t line, offset, width;
    uint64_t value; /* of a store; of a mark its operation */
};

static struct operation operations[MOST_OPERATIONS];
static size_t operation_count;
static struct event events[MOST_EVENTS];
static size_t event_count;

static struct entry entry_of(uint8_t kind, uint64_t operation, uint64_t value, const char *name)
{
    struct entry entry = {{kind, strlen(name)}};
    memcpy(entry.bytes + 8, &operation, 8);
    memcpy(entry.bytes + 16, &value, 8);
    memcpy(entry.bytes + ENTRY_HEAD, name, strlen(name));
    return entry;
}

static void read_operation(const char *text)
{
    unsigned long long number, value;
    unsigned from, to;
    char name[97];
    struct operation *op = &operations[operation_count];
    if (sscanf(text, " op %llu append %u %llu", &number, &from, &value) == 3)
        *op = (struct operation){.number = number, .count = 1, .inodes = {from}, .entries = {entry_of(1, number, value, "")}};
    else if (sscanf(text, " op %llu rename %u %u %96s %llu", &number, &from, &to, name, &value) == 5)
        *op = (struct operation){.number = number,
                                 .count = 2,
                                 .inodes = {from, to},
                                 .entries = {entry_of(3, number, value, name), entry_of(2, number, value, name)}};
    else
        return;
    if (++operation_count == MOST_OPERATIONS)
        fail("too many operations");
}

/* An event by its line of `trace`, as `3 h0 step=5 pc=0x10010 line=5 fence`, or `3 h0 fence`. The last line, of their number, is none. */
static void read_event(const char *text)
{
    static const char *const words[KINDS] = {" store l", " clean l", " fence", " begin ", " end "};
    struct event e = {0};
    unsigned long long value = 0;
    const char *found = NULL;
    if (sscanf(text, "%*u h%u", &e.hart) != 1)
        return;
    while (e.kind < KINDS && (found = strstr(text, words[e.kind])) == NULL)
        e.kind++;
    if (found == NULL || event_count == MOST_EVENTS || e.hart >= MOST_HARTS)
        fail("no such trace");
    found += strlen(words[e.kind]);
    if (e.kind < FENCE)
        sscanf(found, "%u+%u w%u %llx", &e.line, &e.offset, &e.width, &value);
    else
        sscanf(found, "%llu", &value);
    if (e.line >= MOST_LINES)
        fail("no such trace");
    e.value = value;
    events[event_count++] = e;
}

static void read_lines(const char *name, void (*read_one)(const char *))
{
    char text[4096];
    FILE *file = fopen(name, "r");
    if (file == NULL)
        fail("file");
    while (fgets(text, sizeof text, file) != NULL)
        read_one(text);
    fclose(file);
}

static struct operation *operation_of(uint64_t number)
{
    for (size_t at = 0; at < operation_count; at++)
        if (operations[at].number == number)
            return &operations[at];
    return NULL;
}

/* The marks. */

static bool share_inode(const struct operation *one, const struct operation *other)
{
    for (unsigned k = 0; k < one->count; k++)
        for (unsigned l = 0; l < other->count; l++)
            if (one->inodes[k] == other->inodes[l])
                return true;
    return false;
}

static bool shares_with_pending(const struct operation *op)
{
    for (const struct operation *other = operations; other < operations + operation_count; other++)
        if (other->state == PENDING && share_inode(op, other))
            return true;
    return false;
}

/* The number N of the code ON of a mark that doesn't keep to the plan, or 0. */
static code check_mark(const struct event *e)
{
    struct operation *op = operation_of(e->value);
    if (op == NULL)
        return 1;
    if (e->kind == END) {
        if (op->state != PENDING || op->hart != e->hart)
            return 3;
        op->state = ENDED;
        return 0;
    }
    if (op->state != NOT_BEGUN)
        return 2;
    if (shares_with_pending(op))
        return 4;
    op->state = PENDING;
    op->hart = e->hart;
    return 0;
}

/* Ends where a mark anywhere in the run is wrong. */
static void check_marks(void)
{
    for (const struct event *e = events; e < events + event_count; e++) {
        code fault = e->kind == BEGIN || e->kind == END ? check_mark(e) : 0;
        if (fault != 0) {
            fprintf(stderr, "refused O%d\n", fault);
            exit(2);
        }
    }
}

/* What the logs have to hold at the moment: these entries, and behind them of each pending operation all of its entries or none. Where
   `possible` is false no volume is legal. */

struct log {
    uint32_t count;
    const struct operation *pending;
    struct entry entries[MOST_PAGES * 63 + MOST_OPERATIONS];
};

static struct log logs[MOST_INODES];
static unsigned log_count;
static bool possible;

/* The volume of the medium at the start, before any event. */
static void expect_start(struct volume *v)
{
    possible = recover(v) == 0;
    log_count = possible ? v->inodes : 0;
    for (unsigned n = 0; n < log_count; n++) {
        logs[n].pending = NULL;
        logs[n].count = 0;
        for (uint32_t k = 0; k < v->counts[n]; k++) {
            const uint8_t *entry = v->image + v->entries[n][k];
            memcpy(logs[n].entries[logs[n].count++].bytes, entry, ENTRY_HEAD + entry[1]);
        }
    }
}

/* Whether the volume at the start has the logs of the operation. */
static bool has_place(const struct operation *op)
{
    for (unsigned k = 0; k < op->count; k++)
        if (op->inodes[k] >= log_count)
            return false;
    return true;
}

/* An operation without a place can't be in a volume: while it is pending it is in none, and once it has ended none is legal. */
static void expect_mark(const struct event *e)
{
    const struct operation *op = operation_of(e->value);
    if (!has_place(op)) {
        possible &= e->kind == BEGIN;
        return;
    }
    for (unsigned k = 0; k < op->count; k++) {
        struct log *log = &logs[op->inodes[k]];
        log->pending = e->kind == BEGIN ? op : NULL;
        if (e->kind == END)
            log->entries[log->count++] = op->entries[k];
    }
}

static bool has_expected(const struct volume *v, unsigned n)
{
    if (v->counts[n] < logs[n].count)
        return false;
    for (uint32_t k = 0; k < logs[n].count; k++)
        if (!is_entry(&logs[n].entries[k], v->image + v->entries[n][k]))
            return false;
    return true;
}

/* Whether the entries past the expected ones are those of the inode's pending operation, or there are none. */
static bool has_pending_or_none(const struct volume *v, unsigned n)
{
    const struct operation *op = logs[n].pending;
    uint32_t more = v->counts[n] - logs[n].count;
    if (op == NULL || more > 1)
        return more == 0;
    unsigned mine = op->inodes[0] == n ? 0 : 1, other = op->inodes[op->count - 1 - mine];
    if (v->counts[other] - logs[other].count != more)
        return false;
    return more == 0 || is_entry(&op->entries[mine], v->image + v->entries[n][logs[n].count]);
}

static bool is_legal(const struct volume *v)
{
    if (!possible || v->inodes != log_count)
        return false;
    for (unsigned n = 0; n < v->inodes; n++)
        if (!has_expected(v, n) || !has_pending_or_none(v, n))
            return false;
    return true;
}

/* The images of the moment. */

struct stored {
    uint32_t line;
    uint32_t count; /* of its stores */
    uint32_t floor; /* how many of them are on the medium for certain */
    uint32_t cleaned[MOST_HARTS]; /* how many of them a hart has cleaned and not fenced */
    const struct event **stores;
};

static struct stored stored[MOST_LINES];
static size_t stored_count;
static uint8_t image[MOST_LINES * LINE];
static struct volume volume = {.image = image};
static uint32_t image_number;

/* Makes room for the stores of each cache line that has some, upwards; `place` gets where it stands in `stored`. */
static void place_lines(size_t moment, struct stored **place)
{
    static const struct event *stores[MOST_EVENTS];
    static uint32_t counts[MOST_LINES];
    memset(counts, 0, sizeof counts);
    stored_count = 0;
    for (size_t at = 0; at < moment; at++)
        counts[events[at].line] += events[at].kind == STORE;
    uint32_t before = 0;
    for (uint32_t line = 0; line < volume.lines; before += counts[line++])
        if (counts[line] != 0) {
            place[line] = &stored[stored_count++];
            *place[line] = (struct stored){.line = line, .stores = stores + before};
        }
}

static void fence(unsigned hart)
{
    for (struct stored *s = stored; s < stored + stored_count; s++) {
        if (s->cleaned[hart] > s->floor)
            s->floor = s->cleaned[hart];
        s->cleaned[hart] = 0;
    }
}

static void gather(size_t moment)
{
    static struct stored *place[MOST_LINES];
    memset(place, 0, sizeof place);
    place_lines(moment, place);
    for (const struct event *e = events; e < events + moment; e++) {
        struct stored *s = place[e->line];
        if (e->kind == STORE)
            s->stores[s->count++] = e;
        else if (e->kind == CLEAN && s != NULL)
            s->cleaned[e->hart] = s->count;
        else if (e->kind == FENCE)
            fence(e->hart);
        else if (e->kind == BEGIN || e->kind == END)
            expect_mark(e);
    }
}

static bool are_too_many(void)
{
    uint64_t product = 1;
    for (size_t at = 0; at < stored_count && product <= MOST_IMAGES; at++)
        product *= stored[at].count - stored[at].floor + 1;
    return product > MOST_IMAGES;
}

/* Judges the images that agree with this one in the stored cache lines before this one, the fewest stores first. The code of the first
   bad one is that of recovery, or -1 where the volume isn't legal. */
static code judge_from(size_t at)
{
    code fault = 0;
    if (at == stored_count) {
        fault = recover(&volume);
        if (fault == 0 && !is_legal(&volume))
            fault = -1;
        image_number += fault == 0;
        return fault;
    }
    const struct stored *s = &stored[at];
    uint8_t *bytes = image + s->line * LINE, before[LINE];
    memcpy(before, bytes, LINE);
    for (uint32_t n = 0; n <= s->count && fault == 0; n++) {
        if (n > 0)
            memcpy(bytes + s->stores[n - 1]->offset, &s->stores[n - 1]->value, s->stores[n - 1]->width);
        if (n >= s->floor)
            fault = judge_from(at + 1);
    }
    memcpy(bytes, before, LINE);
    return fault;
}

static void read_medium(const char *name)
{
    FILE *file = fopen(name, "rb");
    if (file == NULL)
        fail("file");
    volume.lines = fread(image, LINE, MOST_LINES, file);
    fclose(file);
}

/* Judges a moment, and prints the verdict. */
static code judge(size_t moment)
{
    expect_start(&volume);
    gather(moment);
    image_number = 0;
    bool too_many = are_too_many();
    code fault = too_many ? 0 : judge_from(0);
    if (too_many)
        printf("too many moment=%zu\n", moment);
    else if (fault == 0)
        printf("pass moments=1 images=%u\n", image_number);
    else if (fault < 0)
        printf("fail moment=%zu image=%u cause=illegal\n", moment, image_number);
    else
        printf("fail moment=%zu image=%u cause=N%d\n", moment, image_number, fault);
    return fault;
}

int main(int count, char **words)
{
    if (count != 5)
        fail("wanted: verdict PLAN MEDIUM TRACE MOMENT");
    read_lines(words[1], read_operation);
    read_medium(words[2]);
    read_lines(words[3], read_event);
    check_marks();
    if (strcmp(words[4], "each") != 0) {
        size_t moment = strtoull(words[4], NULL, 10);
        if (moment > event_count)
            fail("refused C1");
        return judge(moment) != 0;
    }
    for (size_t moment = 0; moment <= event_count; moment++)
        judge(moment);
    return 0;
}
