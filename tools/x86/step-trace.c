/* SPDX-License-Identifier: Apache-2.0
 *
 * A second tracer, without Valgrind, to hold against the first: it runs on the bare processor, and shares no code with it.
 *
 *     step-trace PM-FILE OUT PROGRAM WORD ..        cc -O2 -o step-trace step-trace.c
 *
 * The program runs freely to its first mark nc_start or nc_begin, and from there instruction by instruction under ptrace,
 * with the mapped file protected from writes. A store is what an instruction that faulted there has changed, in words of
 * eight bytes: so stores of the bytes that stood there aren't seen. OUT.trace and OUT.medium are made as by novacrash-trace,
 * with a word pc=0x.. for each place. One thread; marks in the program's own file; no system calls that store into the mapping.
 */
#define _GNU_SOURCE
#include <elf.h>
#include <fcntl.h>
#include <signal.h>
#include <stdarg.h>
#include <stdint.h>
#include <stdio.h>
#include <stdlib.h>
#include <string.h>
#include <sys/mman.h>
#include <sys/ptrace.h>
#include <sys/stat.h>
#include <sys/syscall.h>
#include <sys/uio.h>
#include <sys/user.h>
#include <sys/wait.h>
#include <unistd.h>

#define MEMORY_PAGE 4096
#define LINE_SIZE 64
#define MEDIUM_SIZE (512 * LINE_SIZE) /* the least */
#define MAX_MARKS 64
#define MAX_PAGES 4 /* that one instruction stores to */

typedef uint64_t u64;
typedef struct user_regs_struct Registers;

/* What a mark is compiled to: rotations of rdi that change nothing, and then an exchange of rbx with itself. */
static const unsigned char MARK[] = { 0x48, 0xc1, 0xc7, 0x03, 0x48, 0xc1, 0xc7, 0x0d, 0x48, 0xc1,
                                      0xc7, 0x3d, 0x48, 0xc1, 0xc7, 0x33, 0x48, 0x87, 0xdb };
enum { LAST_OF_MARK = 16, NC_START = 0, NC_STOP = 1, NC_BEGIN = 2, NC_END = 3 };

typedef enum { ORDINARY, FENCE, LOCKED, LINE_CLEAN, LINE_FLUSH, NON_TEMPORAL, MARKED } Kind;

static pid_t pid;
static Registers registers; /* before the instruction */
static u64 entry;           /* the program's first instruction, which has run: two of ours are put there */

static const unsigned char *file; /* as it is */
static unsigned char *before;     /* as the stores so far leave it */
static u64 mapped_at, mapped_length;

static FILE *trace;
static u64 events, steps;
static int waiting_cleans, waiting_flushes;
static u64 open_line = -1, open_place; /* a run of non-temporal stores, which is cleaned behind its last */

static u64 pages[MAX_PAGES]; /* that may be written just now, by their offsets in the file */
static int page_count;
static u64 fault_address;

static void stop(const char *why)
{
    fprintf(stderr, "step-trace: %s\n", why);
    if (pid) kill(pid, SIGKILL);
    exit(2);
}

/* ---- the program's memory and its steps ---- */

/* Reads up to the end of a mapping; what is behind it stays zero. */
static void read_memory(u64 address, void *to, size_t size)
{
    struct iovec here = { to, size }, there = { (void *)address, size };
    memset(to, 0, size);
    if (process_vm_readv(pid, &here, 1, &there, 1, 0) == (ssize_t)size) return;
    for (size_t i = 0; i < size; i++) {
        here = (struct iovec){ (char *)to + i, 1 };
        there = (struct iovec){ (void *)(address + i), 1 };
        if (process_vm_readv(pid, &here, 1, &there, 1, 0) < 0) return;
    }
}

static void write_code(u64 address, u64 bytes, int count)
{
    u64 mask = ~0ul >> (64 - 8 * count);
    u64 word = ptrace(PTRACE_PEEKTEXT, pid, address, 0);
    ptrace(PTRACE_POKETEXT, pid, address, (word & ~mask) | (bytes & mask));
}

static int step(void)
{
    int status;
    if (ptrace(PTRACE_SINGLESTEP, pid, 0, 0)) stop("can't step");
    waitpid(pid, &status, 0);
    return status;
}

/* By a system call and a nop at the entry point. A step may end at the system call's own trap. */
static void protect(u64 address, u64 length, int protection)
{
    Registers saved, now;
    ptrace(PTRACE_GETREGS, pid, 0, &saved);
    now = saved;
    now.rip = entry;
    now.rax = SYS_mprotect;
    now.rdi = address;
    now.rsi = length;
    now.rdx = protection;
    now.orig_rax = -1;
    ptrace(PTRACE_SETREGS, pid, 0, &now);
    for (int i = 0; i < 4 && now.rip != entry + 3; i++) {
        step();
        ptrace(PTRACE_GETREGS, pid, 0, &now);
    }
    if (now.rax) stop("mprotect failed");
    ptrace(PTRACE_SETREGS, pid, 0, &saved);
}

/* ---- instructions ---- */

static u64 general_register(int number)
{
    const u64 all[] = { registers.rax, registers.rcx, registers.rdx, registers.rbx, registers.rsp, registers.rbp,
                        registers.rsi, registers.rdi, registers.r8,  registers.r9,  registers.r10, registers.r11,
                        registers.r12, registers.r13, registers.r14, registers.r15 };
    return all[number];
}

static int four_bytes(const unsigned char *at)
{
    int number;
    memcpy(&number, at, 4);
    return number;
}

/* The address that a ModRM byte and what follows it name; `start` is the instruction's first byte. */
static u64 memory_address(const unsigned char *modrm, const unsigned char *start, int rex)
{
    const unsigned char *at = modrm + 1;
    int mode = *modrm >> 6, base = *modrm & 7, wide = 0, is_relative = 0;
    u64 address = 0;
    if (base == 4) {
        int index = (*at >> 3 & 7) | (rex & 2 ? 8 : 0), scale = *at >> 6, sib_base = *at & 7;
        at++;
        if (index != 4) address += general_register(index) << scale;
        if (mode == 0 && sib_base == 5) wide = 1;
        else address += general_register(sib_base | (rex & 1 ? 8 : 0));
    } else if (mode == 0 && base == 5) wide = is_relative = 1;
    else address = general_register(base | (rex & 1 ? 8 : 0));
    if (mode == 1) address += (signed char)*at++;
    if (mode == 2 || wide) address += four_bytes(at), at += 4;
    return is_relative ? address + registers.rip + (at - start) : address;
}

static int is_non_temporal(const unsigned char *opcode, int is_plain)
{
    int is_to_memory = opcode[1] >> 6 != 3;
    if (*opcode == 0xe7 || *opcode == 0x2b) return is_to_memory;
    return (*opcode == 0xc3 && is_plain && is_to_memory) || (*opcode == 0xf7 && !is_to_memory);
}

/* One that begins with 0F, C5, C4 or 62. */
static Kind kind_of_extended(const unsigned char *at, int has_66)
{
    if (*at == 0x62) return (at[1] & 7) == 1 && (at[4] == 0xe7 || at[4] == 0x2b) && at[5] >> 6 != 3 ? NON_TEMPORAL : ORDINARY;
    if (*at == 0xc5) return !(at[1] & 2) && is_non_temporal(at + 2, 0) ? NON_TEMPORAL : ORDINARY;
    if (*at == 0xc4) return (at[1] & 31) == 1 && !(at[2] & 2) && is_non_temporal(at + 3, 0) ? NON_TEMPORAL : ORDINARY;
    if (is_non_temporal(at + 1, !has_66)) return NON_TEMPORAL;
    if (at[1] != 0xae) return ORDINARY;
    int operation = at[2] >> 3 & 7, is_of_memory = at[2] >> 6 != 3;
    if (!is_of_memory) return !has_66 && operation >= 6 ? FENCE : ORDINARY;
    if (operation == 7) return has_66 ? LINE_CLEAN : LINE_FLUSH;
    return operation == 6 && has_66 ? LINE_CLEAN : ORDINARY;
}

static int is_mark(u64 address)
{
    unsigned char bytes[sizeof MARK];
    read_memory(address - LAST_OF_MARK, bytes, sizeof bytes);
    return !memcmp(bytes, MARK, sizeof MARK);
}

/* What the next instruction is, and the address of one that cleans a line. */
static Kind read_instruction(u64 *line_address)
{
    static struct { u64 address; Kind kind; } seen[1 << 16];
    unsigned char bytes[24] = { 0 };
    const unsigned char *at = bytes;
    int has_66 = 0, has_lock = 0, has_repeat = 0, rex = 0, slot = registers.rip & 0xffff;
    if (seen[slot].address == registers.rip) return seen[slot].kind;
    read_memory(registers.rip, bytes, 16);
    for (;; at++) {
        if (*at == 0x66) has_66 = 1;
        else if (*at == 0xf0) has_lock = 1;
        else if (*at == 0xf2 || *at == 0xf3) has_repeat = 1;
        else if (*at != 0x64 && *at != 0x2e && *at != 0x3e) break;
    }
    if ((*at & 0xf0) == 0x40) rex = *at++;
    Kind kind = ORDINARY;
    if (has_lock || ((*at == 0x86 || *at == 0x87) && at[1] >> 6 != 3)) kind = LOCKED;
    else if (!memcmp(bytes, MARK + LAST_OF_MARK, 3) && is_mark(registers.rip)) kind = MARKED;
    else if (!has_repeat && (*at == 0x0f || *at == 0x62 || *at == 0xc4 || *at == 0xc5)) kind = kind_of_extended(at, has_66);
    if (kind == LINE_CLEAN || kind == LINE_FLUSH) *line_address = memory_address(at + 2, bytes, rex);
    else seen[slot].address = registers.rip, seen[slot].kind = kind;
    return kind;
}

/* ---- events ---- */

static void put(int hart, u64 place, const char *format, ...)
{
    va_list words;
    fprintf(trace, "%lu h%d pc=0x%lx ", ++events, hart, place);
    va_start(words, format);
    vfprintf(trace, format, words);
    va_end(words);
    fputc('\n', trace);
}

static void settle(void)
{
    if (open_line == (u64)-1) return;
    put(0, open_place, "clean l%lu", open_line);
    open_line = -1;
    waiting_cleans++;
}

/* What clflush wrote is on the medium before a later store, fence or mark. It is a clean by a hart of its own. */
static void complete_flushes(u64 place)
{
    if (!waiting_flushes) return;
    settle();
    put(1, place, "fence");
    waiting_flushes = 0;
}

static void on_fence(void)
{
    settle();
    complete_flushes(registers.rip);
    put(0, registers.rip, "fence");
    waiting_cleans = 0;
}

static void on_line(Kind kind, u64 address)
{
    if (address < mapped_at || address >= mapped_at + mapped_length) return;
    settle();
    put(kind == LINE_FLUSH, registers.rip, "clean l%lu", (address - mapped_at) / LINE_SIZE);
    if (kind == LINE_FLUSH) waiting_flushes++;
    else waiting_cleans++;
}

static void lengthen_run(u64 line)
{
    if (open_line != line) settle();
    open_line = line;
    open_place = registers.rip;
}

static void put_word(u64 offset, Kind kind)
{
    u64 value;
    complete_flushes(registers.rip);
    memcpy(&value, file + offset, 8);
    memcpy(before + offset, &value, 8);
    if (kind == NON_TEMPORAL) lengthen_run(offset / LINE_SIZE);
    else settle();
    put(0, registers.rip, "store l%lu+%lu w8 0x%lx", offset / LINE_SIZE, offset % LINE_SIZE, value);
}

/* The instruction went through: what it changed, upwards, and protects the pages again. */
static void on_stores(Kind kind)
{
    if (page_count > 1 && pages[0] > pages[1]) {
        u64 swapped = pages[0];
        pages[0] = pages[1];
        pages[1] = swapped;
    }
    if (kind == NON_TEMPORAL) complete_flushes(registers.rip), lengthen_run((fault_address - mapped_at) / LINE_SIZE);
    for (int i = 0; i < page_count; i++) {
        for (u64 offset = pages[i]; offset < pages[i] + MEMORY_PAGE; offset += 8)
            if (memcmp(file + offset, before + offset, 8)) put_word(offset, kind);
        protect(mapped_at + pages[i], MEMORY_PAGE, PROT_READ);
    }
    page_count = 0;
}

/* False at the mark nc_stop. */
static int on_mark(void)
{
    u64 words[3];
    read_memory(registers.rax, words, sizeof words);
    int request = words[0] & 0xffff;
    if (words[0] >> 16 != (('N' << 8) | 'C')) return 1;
    settle();
    complete_flushes(registers.rip + 3);
    if (request == NC_BEGIN) put(0, registers.rip + 3, "begin %lu", words[1]);
    if (request == NC_END) put(0, registers.rip + 3, "end %lu", words[1]);
    return request != NC_STOP;
}

/* ---- the run ---- */

/* Lets the instruction that faulted write the page. */
static void on_fault(void)
{
    siginfo_t info;
    ptrace(PTRACE_GETSIGINFO, pid, 0, &info);
    u64 address = (u64)info.si_addr;
    if (address < mapped_at || address >= mapped_at + mapped_length || page_count == MAX_PAGES) stop("a segmentation fault");
    if (page_count == 0) fault_address = address;
    pages[page_count] = (address - mapped_at) & ~(u64)(MEMORY_PAGE - 1);
    protect(mapped_at + pages[page_count++], MEMORY_PAGE, PROT_READ | PROT_WRITE);
}

static void record(void)
{
    for (;;) {
        u64 line_address = 0;
        ptrace(PTRACE_GETREGS, pid, 0, &registers);
        Kind kind = read_instruction(&line_address);
        if (kind == MARKED && !on_mark()) return;
        int status = step();
        steps++;
        if (WIFEXITED(status) || WIFSIGNALED(status)) {
            pid = 0;
            return;
        }
        if (WSTOPSIG(status) == SIGSEGV) {
            on_fault();
            continue;
        }
        if (page_count) on_stores(kind);
        if (kind == LINE_CLEAN || kind == LINE_FLUSH) on_line(kind, line_address);
        if (kind == FENCE || (kind == LOCKED && (waiting_cleans || waiting_flushes || open_line != (u64)-1))) on_fence();
        if (WSTOPSIG(status) != SIGTRAP) stop("a signal of the program's own");
    }
}

/* ---- the way to the mark ---- */

/* The marks in the program's file, as addresses from its base on. */
static int find_marks(const char *path, u64 *marks, int *is_movable)
{
    struct stat status;
    int descriptor = open(path, O_RDONLY), count = 0;
    if (descriptor < 0 || fstat(descriptor, &status)) stop("can't read the program");
    unsigned char *bytes = mmap(0, status.st_size, PROT_READ, MAP_PRIVATE, descriptor, 0);
    Elf64_Ehdr *header = (void *)bytes;
    Elf64_Phdr *segments = (void *)(bytes + header->e_phoff);
    for (int i = 0; i < header->e_phnum; i++) {
        if (segments[i].p_type != PT_LOAD || !(segments[i].p_flags & PF_X)) continue;
        for (u64 at = 0; at + sizeof MARK <= segments[i].p_filesz && count < MAX_MARKS; at++)
            if (!memcmp(bytes + segments[i].p_offset + at, MARK, sizeof MARK)) marks[count++] = segments[i].p_vaddr + at + LAST_OF_MARK;
    }
    entry = header->e_entry;
    *is_movable = header->e_type == ET_DYN;
    return count;
}

/* Where the child has mapped a file: its first mapping, of offset 0 and of code where `is_code`, else one to write. */
static u64 find_mapping(const char *path, int is_code, u64 *length)
{
    char name[64], line[4400], real[4096];
    u64 start, end, offset, found = 0;
    char rights[8];
    if (!realpath(path, real)) stop("no such file");
    snprintf(name, sizeof name, "/proc/%d/maps", pid);
    FILE *maps = fopen(name, "r");
    while (fgets(line, sizeof line, maps)) {
        line[strcspn(line, "\n")] = 0;
        char *mapped = strchr(line, '/');
        if (!mapped || strcmp(mapped, real)) continue;
        sscanf(line, "%lx-%lx %7s %lx", &start, &end, rights, &offset);
        if (!found && offset == 0 && (is_code || rights[1] == 'w')) found = start, *length = end - start;
        else if (found && !is_code && start == found + *length) *length = end - found;
    }
    fclose(maps);
    return found;
}

/* Runs to the first mark by which a trace begins, and past it. The mark's words. */
static void run_to_start(u64 *words)
{
    int status;
    do {
        ptrace(PTRACE_CONT, pid, 0, 0);
        waitpid(pid, &status, 0);
        if (WIFEXITED(status) || WIFSIGNALED(status)) stop("the program has no mark in its own file");
        if (WSTOPSIG(status) != SIGTRAP) continue;
        ptrace(PTRACE_GETREGS, pid, 0, &registers);
        read_memory(registers.rax, words, 3 * sizeof *words);
        registers.rip += 2; /* the rest of the exchange whose first byte was the breakpoint */
        registers.rdx = 0;
        ptrace(PTRACE_SETREGS, pid, 0, &registers);
    } while (WSTOPSIG(status) != SIGTRAP || ((words[0] & 0xffff) != NC_START && (words[0] & 0xffff) != NC_BEGIN));
}

static void start_program(char **words, u64 *mark)
{
    u64 marks[MAX_MARKS], length, base;
    int status, is_movable, count = find_marks(words[0], marks, &is_movable);
    if (!(pid = fork())) {
        ptrace(PTRACE_TRACEME, 0, 0, 0);
        execv(words[0], words);
        _exit(127);
    }
    waitpid(pid, &status, 0);
    base = is_movable ? find_mapping(words[0], 1, &length) : 0;
    entry += base;
    for (int i = 0; i < count; i++) write_code(base + marks[i], 0xcc, 1);
    run_to_start(mark);
    for (int i = 0; i < count; i++) write_code(base + marks[i], 0x48, 1);
    write_code(entry, 0x90050f, 3); /* syscall, nop */
}

static FILE *open_output(const char *out, const char *end)
{
    char name[4096];
    snprintf(name, sizeof name, "%s.%s", out, end);
    FILE *opened = fopen(name, "w");
    if (!opened) stop("can't write there");
    return opened;
}

static void take_file(const char *path, const char *out)
{
    int descriptor = open(path, O_RDONLY);
    mapped_at = find_mapping(path, 0, &mapped_length);
    if (!mapped_at) stop("the program has not mapped the file from its start on");
    file = mmap(0, mapped_length, PROT_READ, MAP_SHARED, descriptor, 0);
    before = malloc(mapped_length);
    memcpy(before, file, mapped_length);
    FILE *medium = open_output(out, "medium");
    fwrite(before, 1, mapped_length, medium);
    fclose(medium);
    char name[4096];
    snprintf(name, sizeof name, "%s.medium", out);
    if (mapped_length < MEDIUM_SIZE && truncate(name, MEDIUM_SIZE)) stop("can't fill the medium");
}

int main(int count, char **words)
{
    u64 mark[3];
    int status;
    if (count < 4) {
        fprintf(stderr, "step-trace PM-FILE OUT PROGRAM WORD ..\n");
        return 2;
    }
    start_program(words + 3, mark);
    take_file(words[1], words[2]);
    trace = open_output(words[2], "trace");
    protect(mapped_at, mapped_length, PROT_READ);
    if ((mark[0] & 0xffff) == NC_BEGIN) put(0, registers.rip, "begin %lu", mark[1]);
    record();
    settle();
    fprintf(trace, "events %lu\n", events);
    fclose(trace);
    fprintf(stderr, "events %lu instructions %lu\n", events, steps);
    if (pid) {
        protect(mapped_at, mapped_length, PROT_READ | PROT_WRITE);
        ptrace(PTRACE_DETACH, pid, 0, 0);
        waitpid(pid, &status, 0);
    }
    return 0;
}
