"""Small runs by chance: right routines over volumes of both layouts, in which now and then something goes wrong.

The scripts of this folder import it; it isn't run by itself."""

import collections
import struct

from runs import MOST_EVENTS, Operation, Routine, Setting, fresh_medium, page_entries, store

# The most images that a run has, over all its moments; and those of a moment past which it isn't judged image by image.
MANY_IMAGES = 20_000
MOST_IMAGES = 65_536

# A cache line that recovery never reads, nor one of the 27 after it: they lie between the inodes and the journals.
UNREAD = 100

NAMES = {1: ["a", "letter.txt", "a-name-of-thirty-two-letters.txt"],
         2: ["a", "letter.txt", "a-longer-name-of-48-letters-and-digits_0123.text"]}

Run = collections.namedtuple("Run", "setting operations medium events")


class Chance:
    """A source of numbers, which gives the same ones whenever it is made with the same number (splitmix64)."""

    def __init__(self, number):
        self.state = number

    def below(self, limit):
        """A number below the limit."""
        self.state = (self.state + 0x9E3779B97F4A7C15) % 2**64
        mixed = (self.state ^ self.state >> 30) * 0xBF58476D1CE4E5B9 % 2**64
        mixed = (mixed ^ mixed >> 27) * 0x94D049BB133111EB % 2**64
        return (mixed ^ mixed >> 31) % limit

    def is_one_in(self, times):
        """Whether something happens that happens once in so many times."""
        return self.below(times) == 0

    def choice(self, items):
        return items[self.below(len(items))]


def run_by_chance(number):
    """The run of this number."""
    chance = Chance(number)
    setting = any_setting(chance)
    operations = [any_operation(chance, setting, number) for number in range(chance.below(4))]
    routine = Routine(setting)
    medium = any_medium(chance, setting, routine)
    return Run(setting, operations, medium, any_events(chance, setting, routine, operations))


def any_setting(chance):
    """A volume with one page to spare."""
    layout, inodes = 1 + chance.below(2), 1 + chance.below(3)
    return Setting(layout, inodes, inodes + 1, 1 + chance.below(2), 512)


def any_operation(chance, setting, number):
    """An append or, with two inodes, now and then a rename. With the longest name the entries of layout 2 have two cache lines."""
    inode, value = chance.below(setting.inodes), chance.below(100)
    if setting.inodes > 1 and chance.is_one_in(2):
        return Operation(number, inode, (inode + 1) % setting.inodes, chance.choice(NAMES[setting.layout]), value)
    return Operation(number, inode, None, None, value)


def any_medium(chance, setting, routine):
    """The medium that the run starts from, as operations before it left it, now and then as only a first part of their events did; and
    now and then with a word changed."""
    medium = fresh_medium(setting)
    perform_earlier(chance, setting, routine)
    earlier = routine.take_events()
    if chance.is_one_in(8):
        earlier = earlier[:chance.below(len(earlier) + 1)]
    for event in earlier:
        if event[0] == "store":
            struct.pack_into("<Q", medium, 64 * event[2] + event[3], event[5])
    if chance.is_one_in(8):
        line, word = any_word(chance, setting)
        if line < setting.lines:
            struct.pack_into("<Q", medium, 64 * line + 8 * word, any_value(chance))
    return medium


def perform_earlier(chance, setting, routine):
    """None to two appends, now and then enough to fill the page of inode 0 or to leave it one place, and now and then a rename."""
    room = page_entries(setting.layout)
    for number in range({0: room, 1: room - 1}.get(chance.below(16), 0)):
        routine.perform(Operation(1_000 + number, 0, None, None, number))
    for number in range(100, 100 + chance.below(3)):
        routine.perform(Operation(1_000 + number, chance.below(setting.inodes), None, None, number))
    if setting.inodes > 1 and chance.is_one_in(3):
        routine.perform(Operation(2_000, 0, 1, "before", 7))


def any_events(chance, setting, routine, operations):
    """The events of the run: now and then with over 65,536 images, from stores to cache lines that recovery never reads."""
    is_wide = chance.is_one_in(256)
    if is_wide:
        routine.add(*(store(line, 0, 1) for line in range(UNREAD, UNREAD + 17)))
    perform_planned(chance, routine, operations)
    events = interleaved(chance, setting, routine.events)
    return events if is_wide else shortened(events)


def perform_planned(chance, routine, operations):
    """The operations of the plan, on one hart or now and then on two, which may then add to one inode at once. Now and then one isn't
    begun."""
    harts = 2 if chance.is_one_in(5) else 1
    for op in operations:
        if not chance.is_one_in(16):
            routine.perform(op, chance.below(harts))


def interleaved(chance, setting, made):
    """The events of two harts as one run, each hart's in their order, with what goes wrong: never, or once in so many events."""
    rate = chance.choice([None, 32, 12, 5])
    going, waiting = (collections.deque(event for event in made if event[1] == hart) for hart in (0, 1))
    events = []
    for _ in made:
        if not going or (waiting and chance.is_one_in(4)):
            going, waiting = waiting, going
        events += spoiled(chance, setting, rate, going.popleft())
    return events[:MOST_EVENTS]


def spoiled(chance, setting, rate, event):
    """What is made of an event: nothing where it is lost, twice the same, the same by the other hart, or another one before it. Seldom
    does something go wrong with a mark, since nothing is judged where the marks are wrong."""
    if rate is None or not chance.is_one_in(rate):
        return [event]
    if event[0] in ("begin", "end") and not chance.is_one_in(16):
        return [event]
    mishap = chance.below(8)
    if mishap < 3:
        return []
    if mishap == 3:
        return [event, event]
    if mishap == 4:
        return [(event[0], 1 - event[1], *event[2:])]
    return [any_event(chance, setting), event]


def any_event(chance, setting):
    """An event that belongs to no operation, and seldom a mark."""
    hart, kind = chance.below(2), chance.below(64)
    if kind < 2:
        return (("begin", "end")[kind], hart, chance.below(4))
    if kind < 10:
        return ("clean", hart, any_word(chance, setting)[0])
    if kind < 18:
        return ("fence", hart)
    return any_store(chance, setting, hart)


def any_store(chance, setting, hart):
    """A store that changes a word, or now and then a part of one."""
    line, word = any_word(chance, setting)
    width = {0: 1, 1: 2, 2: 4}.get(chance.below(8), 8)
    offset = 8 * word + width * chance.below(8 // width)
    return ("store", hart, line, offset, width, any_value(chance) % 2 ** (8 * width))


def any_word(chance, setting):
    """A word of the volume by its cache line and its number there: of the superblock, an inode, a journal, an entry, a link, or a line
    that recovery never reads."""
    inode, journal = chance.below(setting.inodes), 128 + 8 * chance.below(setting.journals)
    page, part = 256 + 64 * chance.below(setting.pages), chance.below(16)
    if part == 0:
        return 0, chance.below(4)
    if part < 5:
        return 1 + inode, chance.below(2)
    if part < 7:
        return journal, chance.below(2)
    if part < 9:
        return journal + 1 + chance.below(4), chance.below(2)
    if part < 13:
        return page + chance.below(6), chance.below(8)
    if part == 13:
        return page + 62 + chance.below(2), 0
    return UNREAD + chance.below(4), chance.below(8)


def any_value(chance):
    """A value that may stand in a volume: a small number, a place in a log, a page's offset, the head of an entry, or none of these."""
    kind = chance.below(8)
    if kind < 2:
        return chance.below(6)
    if kind < 5:
        return 16_384 + 64 * chance.below(256)
    if kind == 5:
        return 16_384 + 4_096 * chance.below(5)
    if kind == 6:
        return 256 * chance.below(4) + chance.below(5)
    return 2**64 - 1 - chance.below(3)


def image_counts(events):
    """The number of images of each moment, by the stores of each cache line, by those that are on the medium for certain, and by those
    that a hart has cleaned and not fenced."""
    stores, floors, cleaned = collections.Counter(), collections.Counter(), {}
    count, counts = 1, [1]
    for kind, hart, *rest in events:
        if kind == "store":
            line = rest[0]
            free = stores[line] - floors[line]
            count = count // (free + 1) * (free + 2)
            stores[line] += 1
        elif kind == "clean":
            cleaned[hart, rest[0]] = stores[rest[0]]
        elif kind == "fence":
            for line in [line for who, line in cleaned if who == hart]:
                before, floors[line] = floors[line], max(floors[line], cleaned.pop((hart, line)))
                count = count // (stores[line] - before + 1) * (stores[line] - floors[line] + 1)
        counts.append(count)
    return counts


def shortened(events):
    """A beginning of the events with no more than many images: looking at each of more takes long."""
    for _ in range(8):
        counts = image_counts(events)
        if max(counts) <= MOST_IMAGES and sum(counts) <= MANY_IMAGES:
            return events
        events = events[:len(events) // 2]
    return events
