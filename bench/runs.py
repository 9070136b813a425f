"""Runs of any events over log volumes, as objects and schedules that the built program takes and as traces that a plain program takes.

The scripts of this folder import it; it isn't run by itself. Volumes and objects are made by docs/FORMATS.md alone.

An event is a tuple: ("store", hart, line, offset, width, value), ("clean", hart, line), ("fence", hart), ("begin", hart, operation) or
("end", hart, operation). The program of a run reads them from its data: each hart its own, which the schedule puts in order."""

import collections
import itertools
import struct

from timing import answer_of, read, write

# What a volume is made with, and the cache lines of its medium.
Setting = collections.namedtuple("Setting", "layout inodes pages journals lines")

# An operation of a plan: an append to an inode, or where there is another one a rename from the one to the other.
Operation = collections.namedtuple("Operation", "number inode other name value")

PAGE = 4096
FIRST_PAGE = 16_384
MOST_EVENTS = 65_536

# Of an event whose place begins with a word, by the lowest four bits of the word: what stands at 32 times that many bytes. Each takes
# six steps, and five come before it.
HANDLERS = [
    ["srli t0, t0, 4", "add t0, t0, a1", "ld t1, 8(s0)", "sd t1, 0(t0)", "addi s0, s0, 16"],
    ["srli t0, t0, 4", "add t0, t0, a1", "ld t1, 8(s0)", "sw t1, 0(t0)", "addi s0, s0, 16"],
    ["srli t0, t0, 4", "add t0, t0, a1", "ld t1, 8(s0)", "sh t1, 0(t0)", "addi s0, s0, 16"],
    ["srli t0, t0, 4", "add t0, t0, a1", "ld t1, 8(s0)", "sb t1, 0(t0)", "addi s0, s0, 16"],
    ["srli t0, t0, 4", "add t0, t0, a1", "nop", "cbo.clean (t0)", "addi s0, s0, 8"],
    ["nop", "nop", "nop", "fence w, w", "addi s0, s0, 8"],
    ["srli a0, t0, 4", "li a7, 2001", "ecall", "nop", "addi s0, s0, 8"],
    ["srli a0, t0, 4", "li a7, 2002", "ecall", "nop", "addi s0, s0, 8"],
    ["li a0, 0", "li a7, 93", "ecall"],
]
STORES = {8: 0, 4: 1, 2: 2, 1: 3}
CLEAN, FENCE, BEGIN, END, EXIT = range(4, 9)
STEPS = 11
FIRST_STEPS = (5, 6)
EXIT_STEPS = 8

# The data begins with the address of the second hart's events; the first hart's are behind it.
START = ["la s1, handlers", "lui s0, 256", "beqz a0, first", "ld s0, 0(s0)", "j next", "first: addi s0, s0, 8"]
NEXT = ["next: ld t0, 0(s0)", "andi t1, t0, 15", "slli t1, t1, 5", "add t1, t1, s1", "jr t1", "handlers:"]
DATA_BASE = 0x100000
MOST_DATA = 1_048_576


def assemble_text(program):
    """The text of all runs' programs."""
    handlers = [[*lines, "j next", "nop", "nop"][:8] if len(lines) == 5 else lines for lines in HANDLERS]
    write("events.s", [*START, *NEXT, *itertools.chain(*handlers)])
    answer_of([program, "asm", "events.s", "events.o"])
    return read("events.o")[16:]


def words_of(event):
    """The words of an event in the data."""
    kind = event[0]
    if kind == "store":
        _, _, line, offset, width, value = event
        return [(64 * line + offset) << 4 | STORES[width], value]
    if kind == "clean":
        return [64 * event[2] << 4 | CLEAN]
    if kind == "fence":
        return [FENCE]
    return [event[2] << 4 | (BEGIN if kind == "begin" else END)]


def object_of(text, events):
    """The object of a run."""
    parts = [[word for event in events if event[1] == hart for word in words_of(event)] + [EXIT] for hart in (0, 1)]
    words = [DATA_BASE + 8 * (1 + len(parts[0])), *parts[0], *parts[1]]
    data = struct.pack(f"<{len(words)}Q", *words)
    assert len(data) <= MOST_DATA
    return b"RVXPROG1" + struct.pack("<II", len(text), len(data)) + text + data


def schedule_of(events):
    """The items of a run's schedule. No step after the last event is made."""
    items = [f"h{hart}*{steps}" for hart, steps in enumerate(FIRST_STEPS)]
    for hart, group in itertools.groupby(events, lambda event: event[1]):
        items.append(f"h{hart}*{STEPS * len(list(group))}")
    return [" ".join(items)]


def trace_of(events):
    """The lines of `trace` without steps and places."""
    lines = []
    for number, event in enumerate(events, 1):
        kind, hart, *rest = event
        if kind == "store":
            line, offset, width, value = rest
            shown = f"l{line}+{offset} w{width} {value:#x}"
        else:
            shown = "".join(f"l{word}" if kind == "clean" else str(word) for word in rest)
        lines.append(f"{number} h{hart} {kind} {shown}".rstrip())
    return lines + [f"events {len(events)}"]


def plan_of(setting, operations):
    """The lines of a plan."""
    lines = [f"layout {setting.layout}", f"inodes {setting.inodes}", f"pages {setting.pages}", f"journals {setting.journals}"]
    for op in operations:
        if op.other is None:
            lines.append(f"op {op.number} append {op.inode} {op.value}")
        else:
            lines.append(f"op {op.number} rename {op.inode} {op.other} {op.name} {op.value}")
    return lines


def fresh_medium(setting):
    """A medium with a fresh volume."""
    medium = bytearray(64 * setting.lines)
    medium[:8] = b"NOVALOG%d" % setting.layout
    struct.pack_into("<3Q", medium, 8, setting.inodes, setting.pages, setting.journals)
    for inode in range(setting.inodes):
        struct.pack_into("<2Q", medium, 64 * (inode + 1), page_offset(inode), page_offset(inode))
    return medium


def page_offset(page):
    return FIRST_PAGE + PAGE * page


def page_entries(layout):
    """The entries of a page."""
    return 63 if layout == 1 else 31


def store(line, word, value, hart=0):
    """A store of one of a cache line's eight words."""
    return ("store", hart, line, 8 * word, 8, value)


def store_tail(inode):
    """A store of an inode's tail as it stands in a fresh volume."""
    return store(1 + inode, 1, page_offset(inode))


class Routine:
    """A routine over a log volume, event by event: it appends and renames as inode logs after NOVA are written. An entry is durable
    before its log's tail counts it in, and a rename, which moves two tails, goes by a journal of the old ones."""

    def __init__(self, setting):
        self.setting = setting
        self.free_page = setting.inodes
        self.ends = [(page, 0) for page in range(setting.inodes)]
        self.records = 0
        self.events = []

    def take_events(self):
        """The events made so far. The routine goes on from where it stands, without them."""
        events, self.events = self.events, []
        return events

    def add(self, *events):
        """Adds the events for which the trace has room."""
        self.events += events[:MOST_EVENTS - len(self.events)]

    def perform(self, op, hart=0):
        """An operation from its begin to its end; it is left pending where a log has no room for its entry."""
        self.add(("begin", hart, op.number))
        first = self.write(hart, op.inode, 1 if op.other is None else 3, op)
        if first is None:
            return
        if op.other is None:
            self.add(("fence", hart))
            self.commit(hart, [first])
        else:
            second = self.write(hart, op.other, 2, op)
            if second is None:
                return
            self.add(("fence", hart))
            self.commit_both(hart, first, second)
        self.add(("end", hart, op.number))

    def offset(self, page, entries):
        return page_offset(page) + (64 if self.setting.layout == 1 else 128) * entries

    def write(self, hart, inode, kind, op):
        """Writes an entry at the end of its log, and cleans it. Gives the tail's move, and None where there is no room for the entry."""
        end = self.ends[inode]
        place = self.next_place(hart, end)
        if place is None:
            return None
        self.write_entry(hart, self.offset(*place) // 64, kind, op)
        self.ends[inode] = (place[0], place[1] + 1)
        return inode, self.offset(*end), self.offset(*self.ends[inode])

    def next_place(self, hart, end):
        """Where the next entry goes: to the log's end or, where its page is full, to a free page, to which the full one is linked."""
        if end[1] < page_entries(self.setting.layout):
            return end
        if self.free_page >= self.setting.pages:
            return None
        place = (self.free_page, 0)
        self.free_page += 1
        link = self.offset(*end) // 64
        self.add(store(link, 0, self.offset(*place), hart), ("clean", hart, link))
        return place

    def write_entry(self, hart, line, kind, op):
        """Stores an entry, word by word, and cleans its lines."""
        name = b"" if kind == 1 else op.name.encode()
        entry = struct.pack("<BB6xQQ", kind, len(name), op.number, op.value) + name + bytes(-len(name) % 8)
        for at, (word,) in enumerate(struct.iter_unpack("<Q", entry)):
            self.add(store(line + at // 8, at % 8, word, hart))
        self.add(("clean", hart, line))
        if len(entry) > 64:
            self.add(("clean", hart, line + 1))

    def commit(self, hart, moves):
        """Moves tails, and fences them."""
        self.add(*(store(1 + inode, 1, after, hart) for inode, _, after in moves))
        self.add(*(("clean", hart, 1 + inode) for inode, _, _ in moves), ("fence", hart))

    def commit_both(self, hart, *moves):
        """Moves two tails at once: journal 0 has the old ones until both are durable."""
        lines = [129 + (self.records + at) % 4 for at in (0, 1)]
        for line, (inode, before, _) in zip(lines, moves):
            self.add(store(line, 0, inode, hart), store(line, 1, before, hart))
        self.add(*(("clean", hart, line) for line in lines), ("fence", hart))
        self.records += 2
        self.set_journal(hart, 1)
        self.commit(hart, moves)
        self.set_journal(hart, 0)

    def set_journal(self, hart, word):
        """Sets the head of journal 0, in word 0, or its tail, in word 1, past the records that it has had."""
        self.add(store(128, word, self.records, hart), ("clean", hart, 128), ("fence", hart))


def write_run(name, text, setting, operations, medium, events):
    """Writes the files of a run, each with this name, and tells the words of `check` for it behind the plan's."""
    write(f"{name}.plan", plan_of(setting, operations))
    write(f"{name}.medium", bytes(medium))
    write(f"{name}.o", object_of(text, events))
    write(f"{name}.schedule", schedule_of(events))
    write(f"{name}.trace", trace_of(events))
    return [f"{name}.o", f"{name}.schedule", "--medium", f"{name}.medium", "--harts", "2"]
