"""Replays the journal of a text and says what stands at the front of each entry: sizes, pages, holds, locks, mapped view blocks.

It takes the journals of `tools/printed.py` and goes on where that one stops: at a device that failed, and over disks that began with
other bytes than those of the program's own. So it follows what is resident, dirty and held, and does not judge the bytes that were read.
"""
from printed import BLOCK, PAGE, Broken, Call, Journal, blocks_of

# Ends of transfers and syncs that leave dirty what was dirty.
FAILURES = ("failed", "nomemory")
# The calls that change nothing of what is shown here; what reads answer is not judged.
LOOKS = ("cread", "hread", "mdlget", "ncread", "state", "dirty", "lsns", "isdirty", "ask", "ahead", "canwrite", "flush", "purge", "ncwrite")


def runs_of(numbers):
    """Numbers in ascending order, as the ranges that they make."""
    runs = []
    for number in sorted(numbers):
        if runs and runs[-1][1] == number - 1:
            runs[-1][1] = number
        else:
            runs.append([number, number])
    told = [f"{low}" if low == high else f"{low} to {high}" for low, high in runs[:16]]
    return (", ".join(told) or "none") + (f" and {len(runs) - 16} more ranges" if len(runs) > 16 else "")


class Fronts(Journal):
    """A journal whose entries are taken as they stand."""

    def __init__(self, script):
        super().__init__(script)
        self.order, self.failed, self.puzzles = {name: [] for name in self.names}, {}, []

    def take(self, text):
        """The next entry; what it says is taken, whatever the entries before lead to."""
        self.place += 1
        words = text.split(" ")
        kind = words[0].rstrip(";")
        takes = {"fillfailed": self.nothing, "recordfailed": self.nothing, "logfailed": self.nothing, "record": self.nothing,
                 "end": self.end, "sync": self.sync, "call": self.call, "in": self.page_in, "out": self.page_out, "begin": self.begin,
                 "append": self.append, "flushed": self.flush_log, "defer": self.defer, "posted": self.posted, "locked": self.locked,
                 "unlocked": self.unlocked, "tested": self.nothing, "scan": self.nothing}
        try:
            takes[kind](text, words)
        except Broken as broken:
            self.puzzles.append(f"entry {self.place}: {broken}")
        self.trim()

    def nothing(self, _, __):
        """An entry that changes nothing of what is shown."""

    def page_in(self, text, words):
        super().page_in(text, words)
        self.use(words[1], [int(words[2]) * PAGE // BLOCK])

    def end(self, text, words):
        if words[4] not in FAILURES:
            return super().end(text, words)
        stream = self.streams[words[2]]
        stream.transfer = None
        stream.unknown.add(int(words[3]))
        return None

    def sync(self, text, words):
        if words[3] not in FAILURES:
            super().sync(text, words)

    def call(self, _, words):
        number, at = words[1], words.index("=")
        call = Call(self, number, words[3:at], "")
        if words[at + 1] == "ok":
            self.use_of(call, " ".join(words[at + 1:]))
            self.do(call)
        self.last_call[number], self.last_text[number] = self.place, " ".join(words[3:])

    @staticmethod
    def do(call):
        """What a call does; a rule that a journal with failures does not keep is no matter here."""
        try:
            if call.verb not in LOOKS:
                call.do()
        except Broken:
            pass

    def use_of(self, call, answer):
        """The view blocks that a done call uses, in their order."""
        looks_at_disk = call.verb in ("ncread", "ncwrite") or answer == "ok part"
        has_range = call.verb in ("cread", "cwrite", "zero", "map", "pin", "prepare", "mdlread", "mdlwrite", "ncstore", "ahead")
        if has_range and not looks_at_disk:
            self.use(call.stream.name, sorted(blocks_of(*call.needed())))

    def use(self, name, blocks):
        self.order[name] = [it for it in self.order[name] if it not in blocks] + list(blocks)

    def trim(self):
        """Only blocks with a resident page are mapped."""
        for name, order in self.order.items():
            mapped = self.streams[name].blocks
            self.order[name] = [block for block in order if mapped[block] > 0]

    # ---- what is shown

    def sizes_line(self, stream):
        log = "none" if stream.log is None else f"{stream.log}, flushed to {self.flushed[stream.log]}"
        return f"size {stream.size}, valid data length {stream.valid}, allocation {stream.allocation}, log {log}"

    def pages_line(self, stream):
        dirty = ", ".join(self.dirty_text(stream, page) for page in sorted(stream.touches)[:12]) or "none"
        more = f" and {len(stream.touches) - 12} more" if len(stream.touches) > 12 else ""
        return f"resident pages {runs_of(stream.resident)}; dirty pages {dirty}{more}"

    @staticmethod
    def dirty_text(stream, page):
        stamps = stream.stamps(page)
        told = f" (LSN {min(stamps)} to {max(stamps)})" if stamps else ""
        return f"{page}{told}" + (" (disk not known)" if page in stream.unknown else "")

    def holds_line(self, stream):
        holds = self.holds_of(stream)
        told = [self.hold_text(number, holds[number]) for number in sorted(holds)[:8]]
        return "; ".join(told) + (f"; and {len(holds) - 8} more" if len(holds) > 8 else "")

    @staticmethod
    def hold_text(number, hold):
        kind = "exclusive pin" if hold.exclusive and hold.kind == "pin" else hold.kind
        owed = f", owes a stamp to page {runs_of(hold.owed)}" if hold.owed else ""
        who = "setup" if hold.owner == "0" else f"t{hold.owner}"
        return f"#{number} of {who}, {kind} of bytes {hold.begin} to {hold.end}{owed}"

    @staticmethod
    def locks_line(stream):
        return "; ".join(f"lock {number} of {file}, {'exclusive' if exclusive else 'shared'}, {begin} to {end}"
                         for number, (file, begin, end, exclusive) in sorted(stream.locks.items())[:8])

    def front_of(self, name):
        """The lines that say how a stream stands behind the entries that were taken."""
        stream = self.streams[name]
        if not stream.has_map() and not stream.had_map:
            return [f"{name}: never opened"]
        open_by = ", ".join(f"{name}:{number}" for number in sorted(stream.objects)) or "no object, its map waits for its dirty pages"
        lines = [f"{name}: {self.sizes_line(stream)}", f"open by {open_by}" if stream.has_map() else "has no cache map"]
        lines.append(self.pages_line(stream))
        if self.order[name]:
            lines.append(f"view blocks, least recently used first: {', '.join(map(str, self.order[name]))}; quota {stream.quota}")
        for title, line in (("holds", self.holds_line(stream)), ("locks", self.locks_line(stream))):
            lines += [f"{title}: {line}"] if line else []
        if stream.transfer:
            lines.append(f"page {stream.transfer[1]} is under way to the disk")
        return lines
