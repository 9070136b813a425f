/* SPDX-License-Identifier: GPL-2.0-or-later
 *
 * The tool as Valgrind sees it: its options, the requests that a traced program makes, and its system calls.
 * tools/x86/novacrash-trace runs it.
 */
#include "tracer.h"
#include "novacrash_marks.h"
#include "vki/vki-scnums-amd64-linux.h"

Options options = { .shows_clwb = True, .answers_pmemcheck = True };

Bool finds_operations(void) { return options.by_transactions || options.operation_function_count > 0; }

/* ---- options ---- */

static Bool add_operation_function(const HChar *name)
{
    if (options.operation_function_count == MAX_OPERATION_FUNCTIONS) return False;
    options.operation_functions[options.operation_function_count++] = name;
    return True;
}

static Bool read_option(const HChar *argument)
{
    const HChar *function = NULL;
    if VG_STR_CLO(argument, "--pm-file", options.file) {}
    else if VG_STR_CLO(argument, "--trace-file", options.trace) {}
    else if VG_STR_CLO(argument, "--medium-file", options.medium) {}
    else if VG_STR_CLO(argument, "--loads-file", options.loads) {}
    else if VG_STR_CLO(argument, "--operation", function) return add_operation_function(function);
    else if VG_BOOL_CLO(argument, "--from-mapping", options.from_mapping) {}
    else if VG_BOOL_CLO(argument, "--transactions", options.by_transactions) {}
    else if VG_BOOL_CLO(argument, "--all-stores", options.all_stores) {}
    else if VG_BOOL_CLO(argument, "--addresses", options.with_addresses) {}
    else if VG_BOOL_CLO(argument, "--clwb", options.shows_clwb) {}
    else if VG_BOOL_CLO(argument, "--pmemcheck", options.answers_pmemcheck) {}
    else return False;
    return True;
}

static void print_usage(void)
{
    VG_(printf)("    --pm-file=PATH --trace-file=PATH --medium-file=PATH    needed: what is traced, and what is written\n"
                "    --loads-file=PATH                                      in place of the latter two\n"
                "    --operation=FUNCTION --transactions=no|yes --from-mapping=no|yes --all-stores=no|yes\n"
                "    --addresses=no|yes --clwb=yes|no --pmemcheck=yes|no\n");
}

static void print_debug_usage(void) { VG_(printf)("    (none)\n"); }

static void check_options(void)
{
    if (!options.file || (!options.loads && !(options.trace && options.medium))) {
        VG_(umsg)("--pm-file, --trace-file and --medium-file are needed, or --pm-file and --loads-file\n");
        VG_(exit)(2);
    }
    if (options.loads) open_loads();
    else open_trace();
}

/* ---- requests ---- */

static void answer_mark(ThreadId id, UWord request, UWord operation)
{
    Addr instruction = VG_(get_IP)(id);
    Bool is_operation = request == NC_REQUEST_BEGIN || request == NC_REQUEST_END;
    if (request == NC_REQUEST_STOP) stop_recording();
    else if (is_operation && finds_operations()) return;
    else start_recording();
    if (is_operation) mark(id, instruction, request == NC_REQUEST_BEGIN ? "begin" : "end", operation);
}

/* The numbers of requests by which libpmemobj speaks to pmemcheck, of those that mean something here. */
enum { RemoveMapping = 2, IsMapped = 3, StartTransaction = 18, EndTransaction = 20 };

/* Of "is it mapped" the answer yes makes the library say the others. */
static UWord answer_library(ThreadId id, const UWord *words)
{
    UWord request = words[0] & 0xffff;
    if (request == RemoveMapping) add_volatile(words[1], words[2]);
    if (options.by_transactions && request == StartTransaction) begin_counted_operation(id, VG_(get_IP)(id));
    if (options.by_transactions && request == EndTransaction) end_counted_operation(id, VG_(get_IP)(id));
    return request == IsMapped && options.answers_pmemcheck;
}

static Bool answer_request(ThreadId id, UWord *words, UWord *answer)
{
    *answer = 0;
    if (VG_IS_TOOL_USERREQ('N', 'C', words[0])) answer_mark(id, words[0], words[1]);
    else if (VG_IS_TOOL_USERREQ('P', 'C', words[0])) *answer = answer_library(id, words);
    else return False;
    return True;
}

/* ---- system calls ---- */

/* The descriptor that a system call changes the bytes or the size of, else -1. */
static Int written_descriptor(UInt number, const UWord *words)
{
    switch (number) {
    case __NR_write: case __NR_pwrite64: case __NR_writev: case __NR_pwritev: case __NR_pwritev2:
    case __NR_ftruncate: case __NR_sendfile:
        return words[0];
    case __NR_fallocate:
        return words[1] != 0 ? words[0] : -1; /* without a mode it only makes room */
    case __NR_copy_file_range: case __NR_splice:
        return words[2];
    default:
        return -1;
    }
}

static void before_system_call(ThreadId id, UInt number, UWord *words, UInt count)
{
    Int written = is_recording() ? written_descriptor(number, words) : -1;
    if (number == __NR_mmap) expect_shared_mapping((words[3] & VKI_MAP_SHARED) != 0);
    if (number == __NR_mremap && may_touch_file(words[0], words[1]) && is_recording())
        give_up("the program moves a mapping of the file (mremap)");
    if (written >= 0 && is_of_file(written))
        give_up("the program writes to the file by a system call (write, ftruncate or the like)");
}

/* Where a system call takes bytes from: a descriptor, and the place in its file, which is a number or stands where a pointer says. */
typedef struct {
    Int descriptor; /* -1 if it takes none */
    Bool has_place;
    ULong place; /* where the bytes began */
} Source;

/* A place in memory stands behind the bytes once the call is done, and so does the descriptor's own. */
static Source source_by_pointer(Int descriptor, UWord pointer, ULong length)
{
    Source source = { descriptor, pointer != 0, pointer ? *(ULong *)pointer - length : 0 };
    return source;
}

static Source source_of(UInt number, const UWord *words, ULong length)
{
    Source source = { -1, False, 0 };
    switch (number) {
    case __NR_pread64: case __NR_preadv: case __NR_preadv2:
        source.has_place = True;
        source.place = words[3];
        source.descriptor = words[0];
        return source;
    case __NR_read: case __NR_readv:
        source.descriptor = words[0];
        return source;
    case __NR_copy_file_range: case __NR_splice:
        return source_by_pointer(words[0], words[1], length);
    case __NR_sendfile:
        return source_by_pointer(words[1], words[2], length);
    default:
        return source;
    }
}

/* What a system call brought from the file is loaded. Without a place of its own it ends where the descriptor now stands. */
static void after_system_call(ThreadId id, UInt number, UWord *words, UInt count, SysRes result)
{
    Source source;
    if (!options.loads || sr_isError(result)) return;
    source = source_of(number, words, sr_Res(result));
    if (source.descriptor < 0 || !is_of_named_file(source.descriptor)) return;
    if (!source.has_place) source.place = VG_(lseek)(source.descriptor, 0, VKI_SEEK_CUR) - sr_Res(result);
    load_range(source.place, sr_Res(result));
}

/* What a system call takes from the mapping, as write does. */
static void before_kernel_load(CorePart part, ThreadId id, const HChar *what, Addr address, SizeT size)
{
    if (part == Vg_CoreSysCall && options.loads) on_load(address, size);
}

/* What the kernel stores into the mapping, as read does, is a store by the thread. */
static void after_kernel_store(CorePart part, ThreadId id, Addr address, SizeT size)
{
    if (part == Vg_CoreSysCall && is_recording()) stored(id, address, size, VG_(get_IP)(id), Ordinary);
}

/* ---- the tool ---- */

static void after_mmap(Addr start, SizeT length, Bool can_read, Bool can_write, Bool can_run, ULong debug_info)
{
    add_mapping(start, length);
}

static void after_fork(ThreadId id)
{
    leave_trace_to_parent();
    leave_loads_to_parent();
}

static void finish(Int status)
{
    if (options.loads) close_loads();
    else close_trace();
}

static void register_tool(void)
{
    VG_(details_name)("novacrash");
    VG_(details_version)("1");
    VG_(details_description)("traces stores, cleans and fences of a mapped file");
    VG_(details_copyright_author)("");
    VG_(details_bug_reports_to)("");
    VG_(details_avg_translation_sizeB)(400);
    VG_(basic_tool_funcs)(check_options, instrument, finish);
    VG_(needs_command_line_options)(read_option, print_usage, print_debug_usage);
    VG_(needs_client_requests)(answer_request);
    VG_(needs_syscall_wrapper)(before_system_call, after_system_call);
    VG_(track_new_mem_mmap)(after_mmap);
    VG_(track_die_mem_munmap)(remove_mapping);
    VG_(track_post_mem_write)(after_kernel_store);
    VG_(track_pre_mem_read)(before_kernel_load);
    VG_(track_pre_thread_ll_exit)(on_thread_exit);
    VG_(atfork)(NULL, NULL, after_fork);
}

VG_DETERMINE_INTERFACE_VERSION(register_tool)
