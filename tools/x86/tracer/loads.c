/* SPDX-License-Identifier: GPL-2.0-or-later
 *
 * The lines of the file that a program loads, such as a recovery: what it finds depends on no others.
 */
#include "tracer.h"

#define MAX_LINE (1u << 26) /* a file of 4 GiB */

static Int loads_file = -1;
static UChar *is_loaded = NULL; /* of each line */
static UInt count = 0;
static const HChar *reason_to_give_up = NULL;

static void write_text(const HChar *text, SizeT length)
{
    if (loads_file >= 0) VG_(write)(loads_file, text, length);
}

void open_loads(void)
{
    loads_file = open_for_writing(options.loads);
    is_loaded = VG_(am_shadow_alloc)(MAX_LINE);
    tl_assert(is_loaded);
}

void close_loads(void)
{
    HChar text[128];
    if (reason_to_give_up) write_text(text, VG_(sprintf)(text, "given up: %s\n", reason_to_give_up));
    else write_text(text, VG_(sprintf)(text, "loads %u\n", count));
}

void leave_loads_to_parent(void) { loads_file = -1; }

static void load_line(ULong line)
{
    HChar text[32];
    if (line >= MAX_LINE) reason_to_give_up = "a load of a line behind 4 GiB";
    else if (!is_loaded[line]) {
        is_loaded[line] = 1;
        count++;
        write_text(text, VG_(sprintf)(text, "l%llu\n", line));
    }
}

void on_load(Addr address, SizeT size)
{
    Addr end = address + size;
    ULong offset;
    if (!may_touch_file(address, size)) return;
    for (address &= ~(Addr)(LINE_SIZE - 1); address < end; address += LINE_SIZE)
        if (find_mapped(address, &offset)) load_line(offset / LINE_SIZE);
}

/* Bytes that a system call read from the file by its descriptor. */
void load_range(ULong offset, ULong length)
{
    ULong line;
    if (length == 0) return;
    for (line = offset / LINE_SIZE; line <= (offset + length - 1) / LINE_SIZE; line++) load_line(line);
}
