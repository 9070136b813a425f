/* SPDX-License-Identifier: GPL-2.0-or-later
 *
 * What stores, cleans and fences of x86 mean as events, and the lines of the trace. docs/X86.md says it in words.
 */
#include "tracer.h"
#include <stdarg.h>

/* The limits of a trace file, as its reader has them. */
#define MAX_EVENTS 65536
#define MAX_LINES 16384
#define MAX_HARTS 8

#define MAX_THREADS 512 /* Valgrind has 500 by default */

typedef struct {
    UInt hart;             /* from 1 on, in the order of first events; 0 before the first */
    UInt flush_hart;       /* the second hart of the thread: its clflushes are cleans of that one */
    UInt waiting_cleans;   /* since its last fence */
    UInt waiting_flushes;  /* clflushes that no fence of the second hart has completed */
    UInt depth;            /* of operations that are found by functions or transactions */
    ULong operation;
    Addr frame;            /* the stack pointer where the operation's function was entered, else 0 */
} Thread;

typedef enum { BeforeStart, Recording, Over } Phase;

/* The steps of a string instruction so far, within eight aligned bytes of the file: one store. */
typedef struct {
    Bool is_open;
    ThreadId id;
    Addr instruction;
    ULong from, to;
} StringStore;

/* A run of non-temporal stores into one line, which is cleaned once behind them. */
typedef struct {
    Bool is_open;
    ThreadId id;
    Addr instruction; /* the last one's */
    ULong line;
} NonTemporalRun;

static Thread threads[MAX_THREADS];
static Phase phase = BeforeStart;
static StringStore string_store;
static NonTemporalRun run;
static ULong event_count = 0, next_operation = 1;
static UInt hart_count = 0, line_count = 0;
static UChar *has_line = NULL; /* of each line of the file, whether the trace names it */

/* ---- the file ---- */

static Int trace_file = -1;
static HChar buffer[1 << 16];
static Int used = 0;
static const HChar *reason_to_give_up = NULL;

extern Int VG_(safe_fd)(Int descriptor); /* of the core: puts it where the program can't close it */

Int open_for_writing(const HChar *name)
{
    SysRes opened = VG_(open)(name, VKI_O_CREAT | VKI_O_TRUNC | VKI_O_WRONLY, 0644);
    if (sr_isError(opened)) {
        VG_(umsg)("cannot write %s\n", name);
        VG_(exit)(2);
    }
    return VG_(safe_fd)(sr_Res(opened));
}

static void write_buffer(void)
{
    if (trace_file >= 0 && used > 0) VG_(write)(trace_file, buffer, used);
    used = 0;
}

void put(const HChar *format, ...)
{
    va_list words;
    if (used > sizeof buffer - 4096) write_buffer();
    va_start(words, format);
    used += VG_(vsprintf)(buffer + used, format, words);
    va_end(words);
}

void open_trace(void) { trace_file = open_for_writing(options.trace); }

static void settle(void);

void close_trace(void)
{
    if (trace_file < 0) return;
    if (phase == Recording) settle();
    if (reason_to_give_up) put("given up: %s\n", reason_to_give_up);
    else put("events %llu\n", event_count);
    write_buffer();
}

/* A process that was forked is another one: the trace is its parent's. */
void leave_trace_to_parent(void)
{
    phase = Over;
    trace_file = -1;
    used = 0;
}

void give_up(const HChar *reason)
{
    if (phase == Over) return;
    reason_to_give_up = reason;
    phase = Over;
}

Bool is_recording(void) { return phase == Recording; }

void start_recording(void)
{
    if (phase != BeforeStart || options.loads) return;
    phase = Recording;
    if (copy_file()) has_line = VG_(am_shadow_alloc)(file_copy_size() / LINE_SIZE + 1);
    if (!has_line) give_up("the file can't be read where the trace begins");
}

void stop_recording(void)
{
    if (phase == Recording) settle();
    phase = Over;
}

/* ---- lines of the trace ---- */

static UInt number_of_hart(UInt *hart)
{
    if (*hart == 0) *hart = ++hart_count;
    if (*hart > MAX_HARTS) give_up("more than 8 harts: each thread is one, and each that uses clflush a second one");
    return *hart - 1;
}

/* Begins an event's line: its number, its hart and its place. False where the trace has ended. */
static Bool begin_event(ThreadId id, UInt *hart, Addr instruction)
{
    UInt number = number_of_hart(hart);
    if (event_count == MAX_EVENTS) give_up("more than 65,536 events: begin the trace later, or end it earlier");
    if (phase != Recording) return False;
    put("%llu h%u ", ++event_count, number);
    put_place(id, instruction);
    return True;
}

/* Counts the line among those that the trace names. */
static void name_line(ULong line)
{
    if (has_line[line]) return;
    has_line[line] = 1;
    if (++line_count > MAX_LINES) give_up("more than 16,384 different lines: begin the trace later, or end it earlier");
}

static void put_clean(ThreadId id, UInt *hart, Addr instruction, ULong line)
{
    name_line(line);
    if (begin_event(id, hart, instruction)) put("clean l%llu\n", line);
}

/* The least aligned 1, 2, 4 or 8 bytes around those stored, as the stores so far leave them. */
static void put_store(ThreadId id, Addr instruction, ULong from, ULong to)
{
    ULong value = 0, width = 1, at;
    while (from / width != (to - 1) / width) width *= 2;
    at = from / width * width;
    VG_(memcpy)(&value, file_copy() + at, width);
    name_line(at / LINE_SIZE);
    if (begin_event(id, &threads[id].hart, instruction))
        put("store l%llu+%llu w%llu 0x%llx\n", at / LINE_SIZE, at % LINE_SIZE, width, value);
}

/* ---- what waits for a next event ---- */

static void settle_string_store(void)
{
    if (!string_store.is_open) return;
    string_store.is_open = False;
    put_store(string_store.id, string_store.instruction, string_store.from, string_store.to);
}

static void settle_run(void)
{
    if (!run.is_open) return;
    run.is_open = False;
    threads[run.id].waiting_cleans++;
    put_clean(run.id, &threads[run.id].hart, run.instruction, run.line);
}

static void settle(void)
{
    settle_string_store();
    settle_run();
}

/* What a thread's clflushes wrote is on the medium before a later store, fence or mark of the thread. */
static void complete_flushes(ThreadId id, Addr instruction)
{
    Thread *thread = &threads[id];
    if (thread->waiting_flushes == 0) return;
    settle();
    thread->waiting_flushes = 0;
    if (begin_event(id, &thread->flush_hart, instruction)) put("fence\n");
}

/* ---- stores ---- */

static Bool is_next_step(ThreadId id, Addr instruction, ULong offset)
{
    return string_store.is_open && string_store.id == id && string_store.instruction == instruction
           && string_store.to == offset && string_store.from / 8 == offset / 8;
}

static void begin_string_store(ThreadId id, Addr instruction, ULong offset, SizeT length)
{
    settle();
    string_store.is_open = True;
    string_store.id = id;
    string_store.instruction = instruction;
    string_store.from = offset;
    string_store.to = offset + length;
}

/* The line is clean behind the run, be it that a store of it changed nothing. */
static void lengthen_run(ThreadId id, Addr instruction, ULong line)
{
    if (run.is_open && (run.id != id || run.line != line)) settle_run();
    run.is_open = True;
    run.id = id;
    run.instruction = instruction;
    run.line = line;
}

/* A piece of a store, within eight aligned bytes of the file; the bytes are in memory by now. */
static void store_piece(ThreadId id, Addr instruction, InstructionKind kind, ULong offset, const UChar *bytes, SizeT length)
{
    UChar *before = file_copy() + offset;
    Bool is_same = VG_(memcmp)(before, bytes, length) == 0, is_told = !is_same || options.all_stores;
    VG_(memcpy)(before, bytes, length);
    if (kind == StringStep && is_next_step(id, instruction, offset)) {
        string_store.to += length;
        return;
    }
    if (is_told || kind == NonTemporalStore) complete_flushes(id, instruction);
    if (kind == NonTemporalStore) {
        settle_string_store();
        lengthen_run(id, instruction, offset / LINE_SIZE);
        if (is_told) put_store(id, instruction, offset, offset + length);
    } else if (kind == StringStep && is_told)
        begin_string_store(id, instruction, offset, length);
    else if (is_told) {
        settle();
        put_store(id, instruction, offset, offset + length);
    }
}

/* A store is one for each aligned eight bytes, upwards. */
void stored(ThreadId id, Addr address, SizeT size, Addr instruction, InstructionKind kind)
{
    Addr end = address + size, stop;
    ULong offset;
    if (!may_touch_file(address, size)) return;
    for (; address < end && phase == Recording; address = stop) {
        stop = (address | 7) + 1 < end ? (address | 7) + 1 : end;
        if (!find_offset(address, &offset)) continue;
        if (offset + (stop - address) > file_copy_size()) {
            give_up("a store behind the end that the file had where the trace begins");
            return;
        }
        store_piece(id, instruction, kind, offset, (const UChar *)address, stop - address);
    }
}

void on_store(Addr address, SizeT size, Addr instruction, UWord kind)
{
    if (phase == Recording && may_touch_file(address, size))
        stored(VG_(get_running_tid)(), address, size, instruction, kind);
}

/* ---- cleans and fences ---- */

/* A clflush is durable before any later store, and completes no clwb: so it is a clean by a hart of its own. */
static void flushed(ThreadId id, Addr instruction, ULong line)
{
    threads[id].waiting_flushes++;
    put_clean(id, &threads[id].flush_hart, instruction, line);
}

static void cleaned(ThreadId id, Addr instruction, ULong line)
{
    threads[id].waiting_cleans++;
    put_clean(id, &threads[id].hart, instruction, line);
}

/* A line that is volatile in part is cleaned as a whole, and so by any address in it. */
void on_line_instruction(const VexGuestAMD64State *state, Addr instruction)
{
    const UChar *bytes = (const UChar *)instruction;
    ThreadId id = VG_(get_running_tid)();
    ULong offset;
    if (phase != Recording || !find_mapped(line_address(state, bytes), &offset)) return;
    if (offset / LINE_SIZE * LINE_SIZE >= file_copy_size()) return; /* the page's rest behind the file's end */
    settle();
    if (read_instruction(bytes).kind == LineFlush) flushed(id, instruction, offset / LINE_SIZE);
    else cleaned(id, instruction, offset / LINE_SIZE);
}

void on_fence(Addr instruction)
{
    ThreadId id = VG_(get_running_tid)();
    if (phase != Recording) return;
    settle();
    complete_flushes(id, instruction);
    threads[id].waiting_cleans = 0;
    if (begin_event(id, &threads[id].hart, instruction)) put("fence\n");
}

/* A locked instruction orders as a fence does. It is an event where it completes something. */
void on_locked(Addr instruction)
{
    ThreadId id = VG_(get_running_tid)();
    Bool ends_run = run.is_open && run.id == id;
    if (phase == Recording && (threads[id].waiting_cleans || threads[id].waiting_flushes || ends_run)) on_fence(instruction);
}

/* ---- operations ---- */

void mark(ThreadId id, Addr instruction, const HChar *word, ULong operation)
{
    if (phase != Recording) return;
    settle();
    complete_flushes(id, instruction);
    if (begin_event(id, &threads[id].hart, instruction)) put("%s %llu\n", word, operation);
}

void begin_counted_operation(ThreadId id, Addr instruction)
{
    Thread *thread = &threads[id];
    start_recording();
    if (phase != Recording || thread->depth++ > 0) return;
    thread->operation = next_operation++;
    mark(id, instruction, "begin", thread->operation);
}

void end_counted_operation(ThreadId id, Addr instruction)
{
    Thread *thread = &threads[id];
    if (thread->depth > 0 && --thread->depth == 0) mark(id, instruction, "end", thread->operation);
}

void on_operation_entry(Addr stack_pointer, Addr instruction)
{
    ThreadId id = VG_(get_running_tid)();
    if (phase == Over || threads[id].frame != 0) return;
    threads[id].frame = stack_pointer;
    begin_counted_operation(id, instruction);
}

/* The operation ends at the first return that leaves the stack above its function's frame. */
void on_return(Addr stack_pointer, Addr instruction)
{
    ThreadId id = VG_(get_running_tid)();
    if (threads[id].frame == 0 || stack_pointer <= threads[id].frame) return;
    threads[id].frame = 0;
    end_counted_operation(id, instruction);
}

/* Valgrind gives a thread's number to a later one. That is a new hart where a fence of it would complete what the old one left. */
void on_thread_exit(ThreadId id)
{
    Thread *thread = &threads[id];
    if (phase == Recording) settle();
    thread->frame = 0;
    thread->depth = 0;
    if (thread->waiting_cleans) thread->hart = thread->waiting_cleans = 0;
    if (thread->waiting_flushes) thread->flush_hart = thread->waiting_flushes = 0;
}
