/* SPDX-License-Identifier: GPL-2.0-or-later
 *
 * Places in the source: `at=`, the innermost line of the program, `via=`, the function of a library without lines that it
 * called, and `from=`, the line that called.
 */
#include "tracer.h"

#define NAME_SIZE 200
#define MAX_FRAMES 24
#define PLACES 2

typedef struct {
    HChar function[NAME_SIZE], line[NAME_SIZE]; /* empty where it isn't known */
} Frame;

typedef struct {
    Int found;
    HChar via[NAME_SIZE];
} Search;

/* At most NAME_SIZE - 1 bytes of the text, as a word. */
static void copy_word(HChar *to, const HChar *from, SizeT length)
{
    SizeT i;
    if (length >= NAME_SIZE) length = NAME_SIZE - 1;
    for (i = 0; i < length; i++) to[i] = from[i] == ' ' || from[i] == '\n' ? '_' : from[i];
    to[length] = 0;
}

/* Reads Valgrind's words for a frame: "0x..: function (file:line)" or "0x..: function (in library)". */
static void read_frame(const HChar *text, Frame *frame)
{
    const HChar *colon = VG_(strstr)(text, ": ");
    const HChar *name = colon ? colon + 2 : text, *bracket = VG_(strrchr)(name, '(');
    frame->function[0] = frame->line[0] = 0;
    if (!bracket) return;
    copy_word(frame->function, name, bracket > name ? bracket - name - 1 : 0);
    if (VG_(strrchr)(bracket, ':')) copy_word(frame->line, bracket + 1, VG_(strlen)(bracket + 1) - 1);
}

/* The C library's own lines, which are there where its debug symbols are installed, say nothing of the program. */
static Bool is_of_c_library(DiEpoch epoch, Addr instruction)
{
    DebugInfo *info = VG_(find_DebugInfo)(epoch, instruction);
    const HChar *name = info ? VG_(DebugInfo_get_soname)(info) : NULL;
    return name && (VG_(strncmp)(name, "libc.so", 7) == 0 || VG_(strncmp)(name, "ld-linux", 8) == 0
                    || VG_(strncmp)(name, "libpthread.so", 13) == 0);
}

/* Intrinsics such as _mm_clwb are functions of headers that are named so: what counts is who used them. */
static Bool is_place(const Frame *frame) { return frame->line[0] && !VG_(strstr)(frame->line, "intrin.h:"); }

static void take_frame(Search *search, const Frame *frame)
{
    Bool is_named = frame->function[0] && frame->function[0] != '?';
    if (is_place(frame)) {
        put("%s=%s ", search->found == 0 ? "at" : "from", frame->line);
        if (search->found == 0 && search->via[0]) put("via=%s ", search->via);
        search->found++;
    } else if (search->found == 0 && !frame->line[0] && is_named)
        VG_(strcpy)(search->via, frame->function);
}

/* The frames of an address: several where functions were inlined. */
static void take_frames(Search *search, DiEpoch epoch, Addr address)
{
    Bool is_foreign = is_of_c_library(epoch, address);
    InlIPCursor *cursor = VG_(new_IIPC)(epoch, address);
    Frame frame;
    do {
        read_frame(VG_(describe_IP)(epoch, address, cursor), &frame);
        if (is_foreign) frame.line[0] = 0;
        take_frame(search, &frame);
    } while (search->found < PLACES && VG_(next_IIPC)(cursor));
    VG_(delete_IIPC)(cursor);
}

void put_place(ThreadId id, Addr instruction)
{
    Addr addresses[MAX_FRAMES];
    UInt i, count = VG_(get_StackTrace)(id, addresses, MAX_FRAMES, NULL, NULL, 0);
    DiEpoch epoch = VG_(current_DiEpoch)();
    Search search = { 0, "" };
    addresses[0] = instruction;
    for (i = 0; i < (count > 0 ? count : 1) && search.found < PLACES; i++) {
        Addr address = i == 0 ? instruction : addresses[i] - 1; /* others are where a call returns to */
        if (VG_(get_fnname_kind_from_IP)(epoch, address) == Vg_FnNameBelowMain) break;
        take_frames(&search, epoch, address);
    }
    if (search.found == 0) put("at=%s ", search.via[0] ? search.via : "?");
    if (options.with_addresses) put("pc=0x%lx ", instruction);
}
