/* SPDX-License-Identifier: GPL-2.0-or-later
 *
 * The parts of the tracer, a Valgrind tool that writes what a program does to a mapped file as a trace for novacrash:
 *
 *   instrument.c    puts calls into the program's code: at its stores, cleans, fences, functions
 *   instruction.c   what Valgrind's intermediate code doesn't say of an instruction, read from its bytes
 *   events.c        what these calls mean as events, and the lines of the trace
 *   place.c         the places in the source that stand in them
 *   mapping.c       where the file is mapped, and its bytes as the events so far leave them
 *   loads.c         the lines that a program loads, in place of a trace
 *   tracer.c        options, marks, system calls
 */
#ifndef NOVACRASH_TRACER_H
#define NOVACRASH_TRACER_H

#include "pub_tool_basics.h"

#include "pub_tool_aspacemgr.h"
#include "pub_tool_clreq.h"
#include "pub_tool_debuginfo.h"
#include "pub_tool_libcassert.h"
#include "pub_tool_libcbase.h"
#include "pub_tool_libcfile.h"
#include "pub_tool_libcprint.h"
#include "pub_tool_libcproc.h"
#include "pub_tool_machine.h"
#include "pub_tool_options.h"
#include "pub_tool_stacktrace.h"
#include "pub_tool_threadstate.h"
#include "pub_tool_tooliface.h"
#include "pub_tool_vki.h"
#include "libvex_guest_amd64.h"

#define LINE_SIZE 64

/* ---- options (tracer.c) ---- */

#define MAX_OPERATION_FUNCTIONS 16

typedef struct {
    const HChar *file;       /* the mapped file, by its whole path */
    const HChar *trace;      /* where the trace goes */
    const HChar *loads;      /* in place of both: where the lines go that the program loads */
    const HChar *medium;     /* where the file's bytes at the trace's beginning go */
    Bool from_mapping;       /* the trace begins at the file's first mapping, not at a mark */
    Bool by_transactions;    /* each outermost transaction of libpmemobj is an operation */
    Bool all_stores;         /* those too that leave the bytes as they were */
    Bool with_addresses;     /* each event has the address of its instruction as a place word */
    Bool shows_clwb;         /* CPUID shows clwb and clflushopt */
    Bool answers_pmemcheck;  /* libpmemobj may say which parts of its pool are volatile */
    const HChar *operation_functions[MAX_OPERATION_FUNCTIONS]; /* each outermost call of one is an operation */
    Int operation_function_count;
} Options;

extern Options options;

/* Whether operations are found by functions or transactions. The header's marks of operations count for nothing then. */
Bool finds_operations(void);

/* ---- instructions (instruction.c) ---- */

typedef enum {
    Ordinary,
    NonTemporalStore, /* movnti, movntdq and their like: past the cache */
    StringStep,       /* movs, stos: with a repeat prefix each step is a store by itself */
    StoreFence,       /* sfence */
    FullFence,        /* mfence */
    LineFlush,        /* clflush */
    LineClean         /* clwb, clflushopt */
} InstructionKind;

typedef struct {
    InstructionKind kind;
    Int length;               /* of a LineFlush or a LineClean alone */
    UChar rex, modrm;         /* of these too: how the address is made */
    const UChar *after_modrm;
    Bool has_fs;
} Instruction;

Instruction read_instruction(const UChar *bytes);

/* The address of a LineFlush or a LineClean, by the thread's registers. */
Addr line_address(const VexGuestAMD64State *state, const UChar *bytes);

/* ---- the mapped file (mapping.c) ---- */

/* Whether some byte of the range may be of the mapped file: a quick look for what runs at each store. */
Bool may_touch_file(Addr start, SizeT length);

/* Whether the address is of the mapped file's lasting parts, and its offset in the file. */
Bool find_offset(Addr address, ULong *offset);

/* The same also of its volatile parts. */
Bool find_mapped(Addr address, ULong *offset);

void add_mapping(Addr start, SizeT length);
void remove_mapping(Addr start, SizeT length);
void add_volatile(Addr start, SizeT length);

/* The next mapping is shared with the file (or a private copy, whose stores don't reach it). */
void expect_shared_mapping(Bool is_shared);

/* Takes the file's bytes as they are, and writes them to the medium's file. False where they can't be read. */
Bool copy_file(void);
UChar *file_copy(void);
ULong file_copy_size(void);

/* Whether the descriptor is of the file that was copied, or of the one of the name. */
Bool is_of_file(Int descriptor);
Bool is_of_named_file(Int descriptor);

/* ---- events (events.c) ---- */

void open_trace(void);
void close_trace(void);
void leave_trace_to_parent(void);

/* The trace can't say what happened: it ends without its last line, with the reason in place of it. */
void give_up(const HChar *reason);
Bool is_recording(void);
void start_recording(void);
void stop_recording(void);

void on_store(Addr address, SizeT size, Addr instruction, UWord kind);
void on_line_instruction(const VexGuestAMD64State *state, Addr instruction);
void on_fence(Addr instruction);
void on_locked(Addr instruction);
void on_operation_entry(Addr stack_pointer, Addr instruction);
void on_return(Addr stack_pointer, Addr instruction);
void stored(ThreadId id, Addr address, SizeT size, Addr instruction, InstructionKind kind);
void mark(ThreadId id, Addr instruction, const HChar *word, ULong operation);
void begin_counted_operation(ThreadId id, Addr instruction);
void end_counted_operation(ThreadId id, Addr instruction);
void on_thread_exit(ThreadId id);

/* Adds text to the trace: at most 2,000 bytes. */
void put(const HChar *format, ...) PRINTF_CHECK(1, 2);

Int open_for_writing(const HChar *name);

/* ---- loads (loads.c) ---- */

void open_loads(void);
void close_loads(void);
void leave_loads_to_parent(void);
void on_load(Addr address, SizeT size);
void load_range(ULong offset, ULong length);

/* ---- places (place.c) ---- */

/* Adds the place words of the thread's instruction to the trace, each with a blank behind it. */
void put_place(ThreadId id, Addr instruction);

/* ---- code (instrument.c) ---- */

IRSB *instrument(VgCallbackClosure *closure, IRSB *in, const VexGuestLayout *layout, const VexGuestExtents *extents,
                 const VexArchInfo *arch, IRType guest_word, IRType host_word);

#endif
