"""A pool's setting, layout, nodes and tree, as docs/FORMATS.md has them, for the drawings of this folder."""
import struct

# The numbers of a setting: name, least, greatest, default.
FIELDS = [("servers", 1, 8, 2), ("chunks", 1, 4096, 64), ("chunk_nodes", 1, 256, 32), ("locks", 1, 1024, 64),
          ("leaf", 4, 64, 16), ("computes", 1, 8, 2), ("seats", 1, 8, 4), ("bound", 0, 64, 4), ("bits", 4, 48, 32),
          ("rows", 1, 4096, 256), ("cached", 0, 256, 16), ("value_words", 1, 8, 1)]
END = 2 ** 64 - 1
HEADER = ["front version", "level", "low fence", "high fence", "next node", "count"]


class Refused(Exception):
    """An input that can't be drawn, and why."""


def shown(number):
    """A word as it is told: the greatest by its name."""
    return "2^64-1" if number == END else str(number)


class Setting:
    """The numbers of a setting, and where each thing of its pool lies."""

    def __init__(self, numbers):
        for (name, least, most, _), number in zip(FIELDS, numbers):
            if not least <= number <= most:
                raise Refused(f"the setting's {name} is {number}, and not in {least}..={most}")
            setattr(self, name, number)
        self.entry_size = 3 + self.value_words
        self.node_size = 7 + self.entry_size * self.leaf
        self.nodes = self.servers * self.chunks * self.chunk_nodes
        self.all_locks = self.servers * self.locks
        self.all_seats = self.computes * self.seats
        self.first_node_word = 2 + self.servers + self.all_locks
        self.words = self.first_node_word + self.nodes * self.node_size
        if self.words > 4194304:
            raise Refused(f"the setting's pool has {self.words} words, and more than 4194304")

    def node_word(self, node):
        return self.first_node_word + (node - 1) * self.node_size

    def lock_of(self, node):
        server, at = divmod(node - 1, self.chunks * self.chunk_nodes)
        return server * self.locks + at % self.locks

    def compute_of(self, seat):
        return seat // self.seats

    def place(self, at):
        """What a word is: its kind (own, root, counter, lock, node), the thing's number, and its offset in a node."""
        if not 0 <= at < self.words:
            raise Refused(f"word {at} isn't one of the pool's {self.words}")
        if at < 2:
            return (("own", "root")[at], 0, 0)
        if at < 2 + self.servers:
            return ("counter", at - 2, 0)
        if at < self.first_node_word:
            return ("lock", at - 2 - self.servers, 0)
        node, offset = divmod(at - self.first_node_word, self.node_size)
        return ("node", node + 1, offset)

    def part(self, offset, level):
        """The name of a node's word. Where the level isn't known (None), of the words behind the header only a number."""
        if offset < 6:
            return HEADER[offset]
        if offset == self.node_size - 1:
            return "rear version"
        if level is None:
            return f"word {offset}"
        if level > 0:
            pair, word = divmod(offset - 6, 2)
            return f"pair {pair}: {('separator', 'child')[word]}" if pair < 2 * self.leaf else f"word {offset}"
        entry, word = divmod(offset - 6, self.entry_size)
        values = ["value"] if self.value_words == 1 else [f"value word {i}" for i in range(self.value_words)]
        return f"entry {entry}: {(['front version', 'key'] + values + ['rear version'])[word]}"


class Torn:
    """Two versions that differ: the offsets of their words, and what is told of them."""

    def __init__(self, what, words, front, rear):
        self.offsets = (front, rear)
        self.text = f"{what}front {words[front]}, rear {words[rear]}"
        self.short = f"{what}{words[front]} ≠ {words[rear]}"


def torn_by(setting, words):
    """The first two versions of a node's words that differ, or None: the node's, or of a leaf those of an entry."""
    size, entry = setting.node_size, setting.entry_size
    places = [("", 0, size - 1)]
    if words[1] == 0:
        places += [(f"entry {i}: ", 6 + entry * i, 5 + entry * (i + 1)) for i in range(setting.leaf)]
    return next((Torn(what, words, front, rear) for what, front, rear in places if words[front] != words[rear]), None)


class Node:
    """A node's words, read as a node."""

    def __init__(self, setting, words, number):
        first = setting.node_word(number)
        self.setting, self.number, self.first = setting, number, first
        self.words = words[first:first + setting.node_size]
        self.front, self.level, self.low, self.high, self.next, self.count = self.words[:6]
        self.rear = self.words[-1]
        size = setting.entry_size
        if self.level == 0:
            cut = [self.words[6 + size * i:6 + size * (i + 1)] for i in range(setting.leaf)]
            self.entries = [(e[0], e[1], e[2:-1], e[-1]) for e in cut]
            self.pairs = []
        else:
            self.entries = []
            self.pairs = [(self.words[6 + 2 * i], self.words[7 + 2 * i]) for i in range(min(self.count, 2 * setting.leaf))]
        torn = torn_by(setting, self.words)
        self.fault = torn.text if torn else self._fault()

    def _fault(self):
        """Why the words spell no node, or None, where no two versions differ."""
        p = self.setting
        if self.front >= 2 ** p.bits:
            return f"version {self.front}"
        if self.level >= p.nodes:
            return f"level {self.level}"
        if self.low >= self.high:
            return f"low fence {shown(self.low)} isn't below high fence {shown(self.high)}"
        if self.next > p.nodes or (self.next == 0) != (self.high == END):
            return f"next node {self.next} and high fence {shown(self.high)}"
        return self._leaf_fault() if self.level == 0 else self._inner_fault()

    def _leaf_fault(self):
        if self.count != 0:
            return f"count {self.count} of a leaf"
        for i, (version, key, value, _) in enumerate(self.entries):
            if version > 15:
                return f"entry {i}: version {version}"
            if key == 0 and any(value):
                return f"entry {i}: a value and no key"
            if key != 0 and not max(1, self.low) <= key < self.high:
                return f"entry {i}: key {shown(key)} isn't between the fences"
        return None

    def _inner_fault(self):
        lows = [low for low, _ in self.pairs]
        if not 1 <= self.count <= 2 * self.setting.leaf:
            return f"{self.count} pairs"
        if lows[0] != self.low or lows[-1] >= self.high or any(a >= b for a, b in zip(lows, lows[1:])):
            return "separators don't rise between the fences"
        for i, (_, child) in enumerate(self.pairs):
            if not 1 <= child <= self.setting.nodes:
                return f"pair {i}: child {child}"
        return "words behind the last pair" if any(self.words[6 + 2 * self.count:-1]) else None


class Pool:
    """A picture: its setting, its words, and the tree that they hold, as far as they hold one."""

    def __init__(self, data):
        if len(data) < 56:
            raise Refused(f"no picture: it has {len(data)} bytes, and not 56")
        if data[:8] != b"SHERMAN1":
            raise Refused("no picture: it doesn't begin with SHERMAN1")
        self.setting = Setting(struct.unpack(">12I", data[8:56]))
        if len(data) != 56 + 8 * self.setting.words:
            raise Refused(f"no picture: it has {len(data)} bytes, and not the {56 + 8 * self.setting.words} of its setting")
        self.words = struct.unpack(f">{self.setting.words}Q", data[56:])
        self.root = self.words[1]
        self.walk()

    def node(self, number):
        return Node(self.setting, self.words, number)

    def walk(self):
        """Goes along each level, from the top one down. `astray` tells where a level leads to no node that belongs there."""
        self.levels, self.astray, self.seen = [], [], {}
        number, level, came = self.root, None, "the root word"
        while True:
            chain = []
            while number != 0 or came == "the root word":
                fault = self._unsound(number, level)
                if fault:
                    self.astray.append(f"{came} leads to node {number}: {fault}")
                    break
                node = self.node(number)
                level = node.level
                self.seen[number] = node
                chain.append(node)
                number, came = node.next, f"next of node {number}"
            if not chain:
                break
            self.levels.append(chain)
            if chain[0].level == 0 or not chain[0].pairs:
                break
            number, level, came = chain[0].pairs[0][1], level - 1, f"pair 0 of node {chain[0].number}"
        self._post()

    def _unsound(self, number, level):
        if not 1 <= number <= self.setting.nodes:
            return "there is no such node"
        if number in self.seen:
            return "it stands in the tree already"
        node = self.node(number)
        if node.fault and node.level >= self.setting.nodes:
            return node.fault
        if level is not None and node.level != level:
            return f"it has level {node.level}, and not {level}"
        return None

    def _post(self):
        """Which nodes no pair of the level above names, of those that aren't the first of their level."""
        self.unposted = set()
        for above, chain in zip([[]] + self.levels, self.levels):
            named = {pair for node in above for pair in node.pairs}
            self.unposted |= {node.number for node in chain[1:] if (node.low, node.number) not in named}

    def unused(self):
        """The nodes of drawn chunks that stand in no level: those of zeros, and the others; and how many aren't drawn."""
        p, zeros, spare, drawn = self.setting, [], [], 0
        for server in range(p.servers):
            count = min(self.words[2 + server], p.chunks) * p.chunk_nodes
            drawn += count
            for number in range(server * p.chunks * p.chunk_nodes + 1, server * p.chunks * p.chunk_nodes + count + 1):
                if number not in self.seen:
                    (spare if any(self.node(number).words) else zeros).append(number)
        return zeros, spare, p.nodes - drawn

    def held_locks(self):
        """The locks whose words aren't 0, each with its word."""
        first = 2 + self.setting.servers
        return [(i, word) for i, word in enumerate(self.words[first:first + self.setting.all_locks]) if word]
