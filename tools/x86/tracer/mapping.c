/* SPDX-License-Identifier: GPL-2.0-or-later
 *
 * Where the file is mapped, which parts of it are volatile, and a copy of it that has the stores traced so far.
 */
#include "tracer.h"

typedef struct {
    Addr start;
    SizeT length;
    ULong offset; /* in the file */
} Range;

#define MAX_RANGES 64
#define MAX_VOLATILE 4096

static Range ranges[MAX_RANGES];
static Int range_count = 0;
static Addr lowest = ~(Addr)0, beyond = 0; /* all ranges lie in [lowest, beyond) */

/* Parts of the file that hold volatile data, such as libpmemobj's locks. */
static Range volatile_ranges[MAX_VOLATILE];
static Int volatile_count = 0;

static Bool next_is_shared = False;

static UChar *copy = NULL;
static ULong copy_size = 0;
static struct vg_stat copied_file;

static Bool is_within(const Range *range, Addr address)
{
    return address >= range->start && address < range->start + range->length;
}

Bool may_touch_file(Addr start, SizeT length) { return start < beyond && start + length > lowest; }

static const Range *range_of(const Range *among, Int count, Addr address)
{
    Int i;
    for (i = 0; i < count; i++)
        if (is_within(&among[i], address)) return &among[i];
    return NULL;
}

Bool find_mapped(Addr address, ULong *offset)
{
    const Range *range = range_of(ranges, range_count, address);
    if (range) *offset = range->offset + (address - range->start);
    return range != NULL;
}

Bool find_offset(Addr address, ULong *offset)
{
    return may_touch_file(address, 1) && find_mapped(address, offset) && !range_of(volatile_ranges, volatile_count, address);
}

static void find_bounds(void)
{
    Int i;
    lowest = ~(Addr)0;
    beyond = 0;
    for (i = 0; i < range_count; i++) {
        if (ranges[i].start < lowest) lowest = ranges[i].start;
        if (ranges[i].start + ranges[i].length > beyond) beyond = ranges[i].start + ranges[i].length;
    }
}

static void add_range(Addr start, Addr end, ULong offset)
{
    if (start >= end) return;
    if (range_count == MAX_RANGES) {
        give_up("the file is mapped in more than 64 parts");
        return;
    }
    ranges[range_count].start = start;
    ranges[range_count].length = end - start;
    ranges[range_count].offset = offset;
    range_count++;
}

/* What is left of each range before and behind what is unmapped. */
void remove_mapping(Addr start, SizeT length)
{
    Range before[MAX_RANGES];
    Int i, count = range_count;
    Addr end = start + length;
    if (!may_touch_file(start, length)) return;
    VG_(memcpy)(before, ranges, sizeof ranges);
    range_count = 0;
    for (i = 0; i < count; i++) {
        Addr from = before[i].start, to = before[i].start + before[i].length;
        Addr behind = end > from ? end : from;
        add_range(from, to < start ? to : start, before[i].offset);
        add_range(behind, to, before[i].offset + (behind - from));
    }
    find_bounds();
}

void expect_shared_mapping(Bool is_shared) { next_is_shared = is_shared; }

/* Whether a name is that of the file, or another one of it. */
static Bool is_named_file(const HChar *name)
{
    struct vg_stat file, named;
    if (VG_(strcmp)(name, options.file) == 0) return True;
    return !sr_isError(VG_(stat)(name, &file)) && !sr_isError(VG_(stat)(options.file, &named)) && file.dev == named.dev
           && file.ino == named.ino;
}

void add_mapping(Addr start, SizeT length)
{
    const NSegment *segment = VG_(am_find_nsegment)(start);
    const HChar *name = segment ? VG_(am_get_filename)(segment) : NULL;
    Bool is_of_interest = next_is_shared || options.loads; /* a private copy shows the file, too */
    remove_mapping(start, length); /* a new mapping may lie over an old one */
    if (!is_of_interest || !name || !is_named_file(name)) return;
    add_range(start, start + length, segment->offset + (start - segment->start));
    find_bounds();
    if (options.from_mapping) start_recording();
}

/* libpmemobj says that a part of the file is no persistent memory. Of a whole mapping it says so when it closes it. */
void add_volatile(Addr start, SizeT length)
{
    const Range *range = range_of(ranges, range_count, start);
    if (!range || (start <= range->start && start + length >= range->start + range->length)) return;
    if (volatile_count == MAX_VOLATILE) {
        give_up("the program names more than 4,096 volatile parts of the file");
        return;
    }
    volatile_ranges[volatile_count].start = start;
    volatile_ranges[volatile_count++].length = length;
}

UChar *file_copy(void) { return copy; }
ULong file_copy_size(void) { return copy_size; }

/* The mappings are shared, so the file reads as they stand. */
static Bool read_copy(Int from)
{
    if (VG_(fstat)(from, &copied_file) != 0) return False;
    copy = VG_(am_shadow_alloc)(copied_file.size + LINE_SIZE); /* zeros, also behind the last whole line */
    if (!copy) return False;
    while (copy_size < copied_file.size) {
        ULong left = copied_file.size - copy_size;
        Int count = VG_(read)(from, copy + copy_size, left < (1 << 30) ? left : 1 << 30);
        if (count <= 0) return False;
        copy_size += count;
    }
    return True;
}

static Bool write_medium(void)
{
    Int to = open_for_writing(options.medium);
    ULong done = 0;
    Int count = 1;
    while (done < copy_size && count > 0) {
        ULong left = copy_size - done;
        count = VG_(write)(to, copy + done, left < (1 << 30) ? left : 1 << 30);
        if (count > 0) done += count;
    }
    VG_(close)(to);
    return done == copy_size;
}

Bool copy_file(void)
{
    SysRes opened = VG_(open)(options.file, VKI_O_RDONLY, 0);
    Bool is_read;
    if (sr_isError(opened)) return False;
    is_read = read_copy(sr_Res(opened));
    VG_(close)(sr_Res(opened));
    return is_read && write_medium();
}

Bool is_of_file(Int descriptor)
{
    struct vg_stat file;
    return VG_(fstat)(descriptor, &file) == 0 && file.dev == copied_file.dev && file.ino == copied_file.ino;
}

Bool is_of_named_file(Int descriptor)
{
    struct vg_stat file, named;
    SysRes found = VG_(stat)(options.file, &named);
    return !sr_isError(found) && VG_(fstat)(descriptor, &file) == 0 && file.dev == named.dev && file.ino == named.ino;
}
