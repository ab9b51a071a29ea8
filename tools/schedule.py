"""The events of a replay, read from its lines and grouped into READs, WRITEs and single events, seat by seat."""
from pool import FIELDS, Refused, Setting, shown, torn_by

SHAPES = {"load": 2, "store": 2, "exchange": 4, "add": 2}


def setting_of(words):
    """The setting that a program's words ask for; words that say nothing of it are passed over."""
    numbers = {name: default for name, _, _, default in FIELDS}
    words = [part for word in words for part in (word.split("=", 1) if word.startswith("--") else [word])]
    at = 0
    while at < len(words):
        name = words[at][2:].replace("-", "_")
        if words[at] in ("--events", "--map"):
            at += 1
        elif words[at].startswith("--") and name in numbers and words[at + 1:at + 2] and words[at + 1].isdigit():
            numbers[name] = int(words[at + 1])
            at += 2
        else:
            raise Refused(f"the word {words[at]!r} isn't one of a setting with its number")
    return Setting([numbers[name] for name, _, _, _ in FIELDS])


class Event:
    """One event: its number from 1 on, its seat, its kind, its word's address, and the numbers that the line tells."""

    def __init__(self, number, fields):
        if len(fields) < 3 or fields[2] not in SHAPES or len(fields) != SHAPES[fields[2]] + 3 or not all(
                field.isdigit() for field in fields[1:2] + fields[3:]):
            raise Refused(f"line {number} isn't an event's: {','.join(fields)}")
        self.number, self.seat, self.kind, self.at = number, int(fields[1]), fields[2], int(fields[3])
        self.told = [int(field) for field in fields[4:]]
        self.word = self.told[-1]


class Span:
    """Events of a seat that belong together."""

    def __init__(self, kind, seat, thing, number):
        self.kind, self.seat, self.thing, self.number = kind, seat, thing, number
        self.events, self.offsets = [], []
        self.torn = self.level = self.from_seat = None
        self.label, self.whole = "", True

    def add(self, event, offset):
        self.events.append(event)
        self.offsets.append(offset)


def read_lines(text):
    """The events of a replay's output, and its calls' lines."""
    events, calls = [], []
    for line in text.split("\n"):
        fields = line.split(",")
        if fields[0] == "event":
            events.append(Event(len(events) + 1, fields))
        elif fields[0].isdigit() and len(fields) >= 6:
            calls.append(fields)
        elif fields[0] not in ("", "row", "map", "end", "unfinished", "made", "counts"):
            raise Refused(f"no output of a replay: {line[:60]!r}")
    if not events:
        raise Refused("there is no event's line; sherman_replay writes them with --events")
    return events, calls


class Schedule:
    """All spans, in the order of their first events, with torn READs, handovers and waits."""

    def __init__(self, setting, events):
        self.setting, self.spans, self.levels = setting, [], {}
        self.under_way, self.last_read, self.holders = {}, {}, {}
        for event in events:
            if event.seat >= setting.all_seats:
                raise Refused(f"event {event.number} is by seat {event.seat}, and the setting has {setting.all_seats} seats")
            self.take(event)
        for span in self.spans:
            self.name(span)

    def take(self, event):
        thing, number, offset = self.setting.place(event.at)
        if thing == "node" and offset == 1:
            self.levels[number] = event.word
        span = self.under_way.get(event.seat)
        if span is None or not self.goes_on(span, event, thing, number, offset):
            span = self.begin(event, thing, number, offset)
        span.add(event, offset)
        if span.kind == "read" and offset == 0 and len(span.events) == self.setting.node_size:
            self.judge(span)
        if self.is_done(span, offset):
            self.under_way.pop(event.seat, None)

    def goes_on(self, span, event, thing, number, offset):
        """Whether a span takes up an event: the next word of its READ or WRITE, or one more exchange that waits."""
        if span.thing != thing or span.number != number or span.kind != self.kind_of(event, thing):
            return False
        if span.kind == "read":
            return offset == span.offsets[-1] - 1
        if span.kind == "write":
            return offset == span.offsets[-1] + 1
        return span.kind == "wait"

    def kind_of(self, event, thing):
        if thing == "node":
            return {"load": "read", "store": "write"}.get(event.kind, "other")
        if event.kind == "exchange":
            return "won" if event.told[0] == event.told[2] else "wait" if thing == "lock" else "lost"
        return "back" if event.kind == "store" else event.kind

    def begin(self, event, thing, number, offset):
        kind = self.kind_of(event, thing)
        span = Span(kind, event.seat, thing, number)
        if kind in ("write", "back"):
            self.look_for_handover(event.seat, number if thing == "lock" else self.setting.lock_of(number), number if thing == "node" else None)
        if thing == "lock" and kind in ("won", "back"):
            self.holders[number] = event.seat if kind == "won" else None
        if kind == "read":
            self.last_read[event.seat] = span
        self.spans.append(span)
        self.under_way[event.seat] = span
        return span

    def look_for_handover(self, seat, lock, node):
        """A seat stores under a lock that another one of its compute server has taken, so the right was handed over
        before it READ the node: the mark stands at that READ."""
        read, holder = self.last_read.get(seat), self.holders.get(lock)
        if read is None or holder in (None, seat) or self.setting.compute_of(holder) != self.setting.compute_of(seat):
            return
        if self.setting.lock_of(read.number) == lock and node in (None, read.number):
            read.from_seat, self.holders[lock] = holder, seat

    def judge(self, span):
        words = [event.word for event in reversed(span.events)]
        span.torn = torn_by(self.setting, words)

    def is_done(self, span, offset):
        size, entry = self.setting.node_size, self.setting.entry_size
        if span.kind == "read":
            return offset == 0
        if span.kind == "write":
            return offset == size - 1 or span.offsets[0] > 0 and len(span.offsets) == entry
        return span.kind != "wait"

    def name(self, span):
        """What a span does, in words."""
        first = span.events[0]
        if span.thing == "node":
            self.name_of_node(span)
        elif span.thing == "lock":
            span.label = {"won": f"lock {span.number}: taken", "back": f"lock {span.number}: given back",
                          "wait": f"lock {span.number}: waits"}.get(span.kind, f"lock {span.number}")
        elif span.thing == "root":
            span.label = {"won": f"root word: node {first.told[1]} for {first.told[0]}" if len(first.told) > 2 else "",
                          "lost": f"root word: lost, node {first.word} is there"}.get(span.kind, f"root word: node {first.word}")
        elif span.thing == "counter":
            span.label = f"counter {span.number}: " + (f"chunk {first.word} drawn" if span.kind == "add" and first.word < self.setting.chunks
                                                       else f"{first.word} chunks drawn" if span.kind == "load" else "spent")
        else:
            span.label = f"word {first.at}"

    def name_of_node(self, span):
        words = dict(zip(span.offsets, span.events))
        span.level = words[1].word if 1 in words else self.levels.get(span.number)
        what = "" if span.level is None else " (leaf)" if span.level == 0 else f" (level {span.level})"
        if span.kind == "read":
            span.whole = len(span.events) == self.setting.node_size
            span.label = f"READ node {span.number}{what}"
        elif span.kind == "write" and span.offsets[0] == 0:
            span.whole = len(span.events) == self.setting.node_size
            span.label = f"WRITE node {span.number}{what}"
        elif span.kind == "write":
            entry = (span.offsets[0] - 6) // self.setting.entry_size
            span.level, span.whole = 0, len(span.events) == self.setting.entry_size
            span.label = f"WRITE node {span.number}, entry {entry}"
        else:
            span.label = f"node {span.number}"

    def told(self, span, event, offset):
        """What an event does, in words."""
        if span.thing == "node":
            where = f"node {span.number}, word {offset}: {self.setting.part(offset, span.level)}"
        else:
            where = {"own": "the pool's own word", "root": "root word"}.get(span.thing, f"{span.thing} {span.number}")
        if event.kind == "exchange":
            old, new, found = event.told
            return f"{where}: exchange of {old} for {new}, found {found}, so {'it is stored' if found == old else 'nothing is stored'}"
        return f"{where}: {event.kind}{'ed' if event.kind == 'load' else 'd' if event.kind == 'store' else ' of 1, found'} {shown(event.word)}"

    def counts(self):
        """How many spans there are of each kind, and of each mark."""
        kinds = ("read", "write", "won", "wait", "lost", "back", "add", "load")
        counts = {kind: sum(1 for span in self.spans if span.kind == kind) for kind in kinds}
        counts["torn"] = sum(1 for span in self.spans if span.torn)
        counts["handover"] = sum(1 for span in self.spans if span.from_seat is not None)
        return counts
