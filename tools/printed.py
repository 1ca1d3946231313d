"""Checks a printed text by rules of docs/SCRIPTS.md that a reader can follow: every entry of the journal is replayed over plain files.

`faults_of(script, mode, text)` answers what is wrong with the text of a run over the program's own devices in memory, which do not
fail: a list of sentences, empty where nothing is. It knows nothing of the program but what is printed.
"""
import re
from collections import Counter, defaultdict

from scripts import PAGE, content_of, printed

BLOCK, POOL, LOGS = 262144, 256, 4
MOST = 1048576
NO_MEMORY, NO_ROOM = "error 19 NoMemory", "error 13 JournalFull"
ZEROS, FILL = bytes(PAGE), b"\x5A" * PAGE


class Broken(Exception):
    """A rule is broken: the sentence that says which."""


def wants(what, is_so, *seen):
    if not is_so:
        raise Broken(f"{what}: " + ", ".join(str(it)[:300] for it in seen))


def sections_of(text):
    """The sections of a text, by their headings, each as its lines without their numbers; the numbers have to be right."""
    found, lines = {}, []
    for line in text.split("\n")[:-1]:
        if line in ("setup", "journal", "table", "trace") or line.startswith("caller "):
            wants("a heading stands once", line not in found, line)
            lines = found[line] = []
        else:
            lines.append(line)
    return found


def numbered(lines):
    """The numbers and the texts of numbered lines."""
    pairs = []
    for line in lines:
        number, _, rest = line.partition(" ")
        wants("a line begins with its number", number.isdigit() and rest, line)
        pairs.append((int(number), rest))
    return pairs


def pages_of(begin, end):
    """The pages that have a byte of a range."""
    return range(begin // PAGE, (end - 1) // PAGE + 1) if begin < end else range(0)


def blocks_of(begin, end):
    return set(range(begin // BLOCK, (end - 1) // BLOCK + 1)) if begin < end else set()


def span_of(words):
    """The range that two words say, or none."""
    return (int(words[0]), int(words[1])) if words else None


def has(span, page):
    return span is None or page in pages_of(*span)


class Hold:
    def __init__(self, kind, owner, stream, file, begin, end, exclusive):
        self.kind, self.owner, self.stream, self.file = kind, owner, stream, file
        self.begin, self.end, self.exclusive, self.owed = begin, end, exclusive, set()

    def pages(self):
        return pages_of(self.begin, self.end)


class Stream:
    """A stream as the entries so far leave it: its plain file, its map, its dirty pages, and what its disk has."""

    def __init__(self, name):
        self.name = name
        self.size = self.valid = self.allocation = self.quota = 0
        self.had_map = self.temporary = False
        self.objects, self.resident, self.blocks = set(), set(), Counter()
        self.log, self.no_read_ahead, self.no_write_behind, self.threshold = None, False, False, 0
        self.granularity, self.kept = defaultdict(lambda: 65536), defaultdict(list)
        # The bytes of each page that a change reached, what the disk has of each that it took, and those of which that is unknown.
        self.plain, self.disk, self.unknown = {}, {}, set()
        # The places, and the LSNs, of the touches of each page that are not written; and the valid data lengths since the first open,
        # each with the place from which on it was so.
        self.touches, self.valids, self.begun = {}, [], {}
        self.transfer = None
        self.locks, self.granted = {}, 0

    def has_map(self):
        return bool(self.objects or self.touches)

    def bring(self, page):
        if page not in self.resident:
            self.resident.add(page)
            self.blocks[page * PAGE // BLOCK] += 1

    def let_go(self, pages):
        for page in pages:
            self.resident.discard(page)
            self.blocks[page * PAGE // BLOCK] -= 1
        self.blocks += Counter()

    def page(self, page):
        """The bytes of a page of the plain file."""
        content = self.plain.get(page, FILL)
        end = self.valid - page * PAGE
        return content if end >= PAGE else content[:max(end, 0)] + bytes(PAGE - max(end, 0))

    def answer(self, at, length):
        """What a read of a range answers."""
        end = min(at + length, self.size)
        if at >= end:
            return b""
        whole = b"".join(self.page(page) for page in pages_of(at, end))
        return whole[at % PAGE:at % PAGE + end - at]

    def set_valid(self, valid, place):
        self.valid = valid
        self.valids.append((place, valid))

    def put(self, at, content):
        """Puts bytes into the plain file."""
        taken = 0
        while taken < len(content):
            page, begin = divmod(at + taken, PAGE)
            piece = content[taken:taken + PAGE - begin]
            old = self.plain.get(page, FILL)
            self.plain[page] = piece if len(piece) == PAGE else old[:begin] + piece + old[begin + len(piece):]
            taken += len(piece)

    def change(self, at, content, place):
        self.put(at, content)
        end = at + len(content)
        if content and end > self.valid:
            self.set_valid(end, place)
        self.touch(pages_of(at, end), place)

    def touch(self, pages, place, lsn=None):
        for page in pages:
            self.touches.setdefault(page, []).append((place, lsn))

    def resize(self, size, place):
        self.size = size
        if size < self.valid:
            self.set_valid(size, place)
        self.let_go([page for page in self.resident if page * PAGE >= size])
        for page in [page for page in self.touches if page * PAGE >= size]:
            del self.touches[page]

    def low(self, page):
        """The least valid data length since the begin of the transfer on which the image of a page stands, or since the first open."""
        place = self.begun.get(page, 0)
        before = [valid for at, valid in self.valids if at <= place][-1:]
        return min(before + [valid for at, valid in self.valids if at > place], default=0)

    def has_grown(self, page):
        return max(page * PAGE, self.low(page)) < min((page + 1) * PAGE, self.valid)

    def stamps(self, page):
        return [lsn for _, lsn in self.touches.get(page, []) if lsn]


class Journal:
    """The entries of a journal, taken one after another: each has to be allowed behind those before it, and answered as they say."""

    def __init__(self, script):
        names = [line.words[0] for line in script.streams]
        self.streams = {name: Stream(name) for name in names}
        self.capacity, self.threshold, self.names = script.journal, script.threshold, names
        self.place, self.calls = 0, Counter()
        # Of each pass the place and the text of its last call, and what it synced and wrote since.
        self.last_call, self.last_text, self.synced, self.written = Counter(), {}, {}, defaultdict(set)
        self.holds, self.made = {}, 0
        self.floor, self.flushed = Counter(), Counter()
        self.deferred, self.queue = 0, []
        self.cursor, self.scanned = (0, 0), 0
        # The entries of each pass that a line leaves, as texts, and those that went to a device.
        self.left, self.trace = defaultdict(list), []

    # ---- what the entries so far say

    def dirty(self):
        return sum(len(stream.touches) for stream in self.streams.values())

    def free_views(self):
        return POOL - sum(stream.quota for stream in self.streams.values() if stream.has_map())

    def may_go(self, stream, pages):
        is_below = self.dirty() + pages < self.threshold
        return is_below and (not stream.threshold or len(stream.touches) + pages < stream.threshold)

    def holds_of(self, stream):
        return {number: hold for number, hold in self.holds.items() if hold.stream is stream}

    def blocks_held(self, stream):
        return set().union(*(blocks_of(hold.begin, hold.end) for hold in self.holds_of(stream).values()))

    def owing(self, stream, span):
        """The least pin of the least page of a range to which a stamp is owed."""
        owed = [(page, number) for number, hold in self.holds_of(stream).items() for page in hold.owed if has(span, page)]
        return min(owed)[1] if owed else None

    def barred(self, pages, stream, exclusive):
        """The least pin that bars a pin of these pages."""
        return min((number for number, hold in self.holds_of(stream).items()
                    if hold.kind == "pin" and (exclusive or hold.exclusive) and not set(pages).isdisjoint(hold.pages())), default=None)

    def table(self):
        """The lines of the table: each dirty page with its least and its greatest LSN."""
        lines = []
        for name in self.names:
            stream = self.streams[name]
            for page in sorted(stream.touches):
                stamps = stream.stamps(page) or ["-"]
                lines.append(f"{name} {page} {min(stamps)} {max(stamps)}")
        return lines

    # ---- entries

    def take(self, text):
        """The next entry."""
        self.place += 1
        wants("the journal keeps within its capacity", self.place <= self.capacity, self.place)
        words = text.split(" ")
        kind = words[0].rstrip(";")
        known = {"call": self.call, "in": self.page_in, "out": self.page_out, "begin": self.begin, "end": self.end, "sync": self.sync,
                 "record": self.record, "append": self.append, "flushed": self.flush_log, "defer": self.defer, "posted": self.posted,
                 "locked": self.locked, "unlocked": self.unlocked, "tested": self.tested, "scan": self.scan}
        wants("no entry tells of a device that failed", kind in known, text)
        try:
            known[kind](text, words)
        except (KeyError, IndexError, ValueError) as error:
            raise Broken(f"an entry is as docs/SCRIPTS.md says: {text[:300]} ({error!r})") from error

    def leave(self, number, text):
        """An entry that a line of a pass leaves."""
        self.left[int(number.rstrip(";"))].append(text)

    def page_in(self, text, words):
        stream, page = self.streams[words[1]], int(words[2])
        wants("a page comes in of a stream with a map", stream.has_map(), text)
        wants("a page comes in that was not there", page not in stream.resident, text)
        wants("a page comes in below the size", page * PAGE < stream.size, text, stream.size)
        wants("no page comes in while a transfer is under way", stream.transfer is None, text)
        is_read = page * PAGE < stream.valid
        wants("a page is read where it has a byte below the valid length", words[3] == ("disk" if is_read else "zero"), text, stream.valid)
        stream.bring(page)
        wants("no more blocks are mapped than the quota", len(stream.blocks) <= stream.quota, text, len(stream.blocks))
        if words[3] == "disk":
            self.trace.append(f"read {words[1]} {page}")

    def page_out(self, text, words):
        stream, page = self.streams[words[1]], int(words[2])
        wants("a page goes out that was there", page in stream.resident, text)
        wants("no dirty page goes out", page not in stream.touches, text)
        wants("no held page goes out", not any(page in hold.pages() for hold in self.holds_of(stream).values()), text)
        wants("no page goes out while a transfer is under way", stream.transfer is None, text)
        stream.let_go([page])

    def begin(self, text, words):
        stream, page = self.streams[words[2]], int(words[3])
        wants("a page is written that is there and dirty", page in stream.resident and page in stream.touches, text)
        wants("a page that owes a stamp is not written", self.owing(stream, (page * PAGE, (page + 1) * PAGE)) is None, text)
        self.is_flushed_for(stream, page, text)
        wants("one transfer of a stream at a time", stream.transfer is None, text)
        stream.transfer = (words[1], page, self.place, stream.page(page))
        self.trace.append(f"write {words[2]} {page} begin")

    def is_flushed_for(self, stream, page, text):
        newest = max(stream.stamps(page), default=0)
        if stream.log is not None:
            flushed = self.flushed[stream.log]
            wants("the log is flushed to the newest stamp first", flushed >= newest, text, flushed, newest)

    def end(self, text, words):
        stream, page = self.streams[words[2]], int(words[3])
        wants("a transfer ends that its pass began", stream.transfer and stream.transfer[:2] == (words[1], page), text, stream.transfer)
        _, _, place, content = stream.transfer
        stream.transfer = None
        wants("a transfer ends well, or for want of memory", words[4] in ("ok", "nomemory"), text)
        self.trace.append(f"write {words[2]} {page} {words[4]}")
        if words[4] != "ok":
            stream.unknown.add(page)
            return
        self.written[words[1]].add((words[2], page))
        stream.disk[page], stream.begun[page] = content, place
        stream.unknown.discard(page)
        later = [touch for touch in stream.touches.get(page, []) if touch[0] > place]
        if later:
            stream.touches[page] = later
        else:
            stream.touches.pop(page, None)
        self.close_map(stream)

    @staticmethod
    def close_map(stream):
        """The map of a stream goes where nothing keeps it, and its pages with it."""
        if not stream.has_map():
            stream.let_go(list(stream.resident))

    def sync(self, text, words):
        stream = self.streams[words[2]]
        wants("a sync comes while no transfer is under way", stream.transfer is None, text)
        wants("a sync ends well, or for want of memory", words[3] in ("ok", "nomemory"), text)
        self.trace.append(f"sync {words[2]} {words[3]}")
        if words[3] == "ok":
            seen = self.last_call[words[1]]
            old = {page for page, touches in stream.touches.items() if touches[0][0] <= seen}
            self.synced.setdefault(words[1], []).append((self.place, stream, old))

    def record(self, text, words):
        stream = self.streams[words[2]]
        is_so = int(words[3]) == stream.size and int(words[4]) <= stream.valid
        wants("a record says the size, and a valid length that the stream has", is_so, text)
        self.trace.append(f"record {words[2]} {words[3]} {words[4]}" if words[5] == "ok" else f"record {words[2]} {words[5]}")
        self.leave(words[1], " ".join(["record", *words[2:]]))

    def append(self, text, words):
        log, lsn = int(words[2]), int(words[3])
        wants("an entry of a log has the next LSN", lsn == self.floor[log] + 1 and log < LOGS, text, self.floor[log])
        self.floor[log] = lsn
        self.trace.append(f"log {log} append {lsn}")
        self.leave(words[1], " ".join(["append", *words[2:]]))

    def flush_log(self, text, words):
        log, lsn = int(words[1]), int(words[2])
        wants("a log is flushed further", lsn > self.flushed[log] and log < LOGS, text, self.flushed[log])
        self.flushed[log] = lsn
        self.floor[log] = max(self.floor[log], lsn)
        self.trace.append(f"log {log} flush {lsn}")

    def defer(self, text, words):
        self.deferred += 1
        wants("deferred writes count up, and at most 64 wait", int(words[2]) == self.deferred and len(self.queue) < 64, text)
        waiting = (int(words[2]), self.streams[words[3]], int(words[4]))
        self.queue.insert(0 if words[5:] == ["retry"] else len(self.queue), waiting)
        self.leave(words[1], " ".join(["defer", *words[2:]]))

    def posted(self, text, words):
        wants("the first deferred write is posted", self.queue and self.queue[0][0] == int(words[1]), text)
        _, stream, pages = self.queue.pop(0)
        wants("a deferred write is posted where it may go", self.may_go(stream, pages), text, self.dirty())

    def in_the_way(self, stream, begin, end, bars):
        found = (number for number, (file, low, high, exclusive) in stream.locks.items()
                 if max(begin, low) < min(end, high) and bars(file, exclusive))
        return min(found, default=None)

    def locked(self, text, words):
        stream, exclusive = self.streams[words[2].split(":")[0]], words[5] == "excl"
        span = (int(words[3]), int(words[4]))
        number = self.in_the_way(stream, *span, lambda _, other: exclusive or other)
        if number is None:
            stream.granted += 1
            stream.locks[stream.granted] = (words[2], *span, exclusive)
        told = ["ok", str(stream.granted)] if number is None else ["conflict", str(number)]
        wants("a lock is granted under the next number, or told the least in its way", words[-2:] == told, text, told)
        self.leave(words[1], " ".join(["locked", *words[2:]]))

    def unlocked(self, text, words):
        stream = self.streams[words[2].split(":")[0]]
        is_own = stream.locks.get(int(words[3]), ("",))[0] == words[2]
        if is_own:
            del stream.locks[int(words[3])]
        wants("the end of a lock is told whether the object had it", words[4] == ("true" if is_own else "false"), text)
        self.leave(words[1], " ".join(["unlocked", *words[2:]]))

    def tested(self, text, words):
        stream, writes = self.streams[words[2].split(":")[0]], words[5] == "write"
        number = self.in_the_way(stream, int(words[3]), int(words[4]),
                                 lambda file, exclusive: (writes and not exclusive) or (exclusive and file != words[2]))
        told = [] if number is None else ["conflict", str(number)]
        wants("a test tells the least lock that conflicts", words[6:] == told, text, told)
        self.leave(words[1], " ".join(["tested", *words[2:]]))

    def scan(self, text, words):
        pages = [(number, page) for number, name in enumerate(self.names)
                 if not self.streams[name].temporary and not self.streams[name].no_write_behind
                 for page in sorted(self.streams[name].touches)]
        many = len(pages)
        pick = many if many <= 8 else many // 8
        more = many - pick + max(many - self.scanned, 0) - self.threshold * 3 // 4
        pick = min(many, pick + max(more, 0))
        behind = [it for it in pages if it >= self.cursor]
        wanted = (behind + [it for it in pages if it < self.cursor])[:pick]
        told = [tuple(it.split(" ")) for it in text.split("; ")[1:]]
        wants("a scan picks the pages that it has to", told == [(self.names[number], str(page)) for number, page in wanted], text, wanted)
        self.scanned = many
        if wanted:
            self.cursor = (wanted[-1][0], wanted[-1][1] + 1)
        self.leave(words[1], f"scan {len(told)}")

    # ---- calls

    def call(self, text, words):
        number = words[1]
        self.calls[number] += 1
        wants("the calls of a pass count up", int(words[2]) == self.calls[number], text)
        at = words.index("=")
        asked, answer = words[3:at], " ".join(words[at + 1:])
        call = Call(self, number, asked, text)
        refusal = call.refusal()
        if answer.startswith("error"):
            wants("a refusal is the one that the entries before lead to", answer == refusal or call.is_free(answer), text, refusal)
        else:
            wants("a call is done where nothing refuses it", refusal is None or call.verb == "ncwrite", text, refusal)
            wants("the pages that a call needs are there", call.pages_are_there(answer), text)
            wanted = call.do()
            wants("a call answers what the entries before lead to", answer == wanted, text, wanted)
        self.last_call[number], self.last_text[number] = self.place, " ".join(words[3:])
        self.synced.pop(number, None)
        self.written.pop(number, None)
        self.leave(number, self.last_text[number])


class Call:
    """A call of the journal, before it is done: what refuses it, and what it does and answers."""

    HOLDS = ("hread", "pwrite", "stamp", "unpin", "repin", "pinmapped", "mdlget", "mdlput")
    LOGS_ALONE = ("dirty", "isdirty")

    def __init__(self, journal, number, asked, text):
        self.journal, self.number, self.text = journal, number, text
        self.verb, *self.words = asked
        self.hold = self.stream = None
        if self.verb in self.HOLDS:
            self.hold_id = int(self.words[0].removeprefix("#"))
            self.hold = journal.holds[self.hold_id]
            wants("a hold is used by the pass that made it", self.hold.owner == number, text)
            self.stream, self.file = self.hold.stream, self.hold.file
        elif self.verb not in self.LOGS_ALONE:
            name, number = self.words[0].split(":")
            self.stream, self.file = journal.streams[name], int(number)
        self.is_zeroing = self.verb == "prepare" and "zero" in self.words
        self.begin, self.end = self.range()

    def range(self):
        """The range of the call that is not cut, or none."""
        if self.verb in ("cread", "map", "pin", "prepare", "mdlread", "mdlwrite", "ask", "ahead", "hread", "mdlget"):
            return int(self.words[1]), int(self.words[1]) + int(self.words[2])
        if self.verb in ("cwrite", "pwrite", "mdlput"):
            return int(self.words[1]), int(self.words[1]) + len(content_of(self.words[2]))
        if self.verb == "zero":
            return int(self.words[1]), int(self.words[2])
        if self.verb in ("ncread", "ncstore", "ncwrite"):
            return int(self.words[1]) * PAGE, int(self.words[1]) * PAGE + PAGE
        return 0, 0

    def needed(self):
        """The range whose pages the call needs, cut at the size where it is a read or of a page."""
        end = min(self.end, self.stream.size) if self.verb in ("cread", "ncread", "ncstore", "ncwrite", "ahead") else self.end
        return self.begin, max(self.begin, end)

    def span(self):
        return span_of(self.words[1:3])

    def refusal(self):
        """The first refusal that stands, or none."""
        tests = [self.not_cached, self.too_long, self.view_boundary, self.bad_sizes, self.bad_granularity, self.no_log, self.beyond_size,
                 self.beyond_valid, self.held, self.busy, self.no_views, self.no_vacbs, self.not_resident, self.unsettled, self.grown]
        return next((told for told in (test() for test in tests) if told), None)

    def is_free(self, answer):
        """Whether a refusal hangs on what an entry does not keep: the bytes that a noncached line says, and the queue of read-ahead."""
        of_line = self.verb in ("ncread", "ncwrite") and re.match("error [46] ", answer)
        return of_line or (self.verb == "ask" and answer == "error 18 QueueFull")

    def not_cached(self):
        is_asked = self.stream and not self.hold and self.verb not in ("init", "ahead")
        return "error 1 NotCached" if is_asked and self.file not in self.stream.objects else None

    def too_long(self):
        is_long = self.verb in ("cread", "cwrite", "zero", "mdlread", "mdlwrite") and self.end - self.begin > MOST
        return f"error 4 TooLong {MOST}" if is_long else None

    def view_boundary(self):
        is_over = self.verb in ("map", "pin", "prepare") and len(blocks_of(self.begin, self.end)) > 1
        return "error 5 ViewBoundary" if is_over else None

    def bad_sizes(self):
        if self.verb == "init" and not self.stream.has_map():
            allocation, size, valid = map(int, self.words[1:4])
            is_bad = not valid <= size <= allocation < 2**63 or (self.stream.had_map and valid > self.stream.valid)
        else:
            is_bad = self.verb == "sizes" and not int(self.words[2]) <= int(self.words[1]) < 2**63
        return "error 7 BadSizes" if is_bad else None

    def bad_granularity(self):
        is_bad = self.verb == "granularity" and int(self.words[1]) not in [2**power for power in range(12, 21)]
        return "error 20 BadGranularity" if is_bad else None

    def no_log(self):
        log = {"setlog": 1, "dirty": 0}.get(self.verb)
        return f"error 21 NoLog {self.words[log]}" if log is not None and int(self.words[log]) >= LOGS else None

    def beyond_size(self):
        whole = self.verb in ("cwrite", "zero", "map", "pin", "prepare", "mdlread", "mdlwrite") and self.end > self.stream.size
        page = self.verb in ("ncstore", "ncwrite") and self.begin >= self.stream.size
        return f"error 2 BeyondSize {self.stream.size}" if whole or page else None

    def beyond_valid(self):
        changes = self.verb in ("cwrite", "zero", "pwrite", "mdlput", "ncstore", "ncwrite") or self.is_zeroing
        return f"error 3 BeyondValid {self.stream.valid}" if changes and self.begin > self.stream.valid else None

    def held(self):
        if self.verb not in ("sizes", "uninit", "purge", "discard"):
            return None
        holds = self.journal.holds_of(self.stream)
        if self.verb == "sizes":
            found = [number for number, hold in holds.items() if hold.end > int(self.words[2])]
        elif self.verb == "uninit":
            found = list(holds) if self.stream.objects == {self.file} else []
        else:
            found = [number for number, hold in holds.items() if any(has(self.span(), page) for page in hold.pages())]
        return f"error 8 Held {min(found)}" if found else None

    def busy(self):
        if self.verb in ("pin", "prepare"):
            pin = self.journal.barred(pages_of(self.begin, self.end), self.stream, "excl" in self.words)
        elif self.verb == "pinmapped":
            pin = self.journal.barred(self.hold.pages(), self.stream, "excl" in self.words)
        elif self.verb in ("flush", "ncstore", "ncwrite"):
            pin = self.journal.owing(self.stream, self.span() if self.verb == "flush" else (self.begin, self.end))
        else:
            pin = None
        return f"error 9 Busy {pin}" if pin is not None else None

    def missing(self):
        return [page for page in pages_of(*self.needed()) if page not in self.stream.resident]

    def no_views(self):
        asked = self.verb in ("cread", "cwrite", "zero", "map", "pin", "prepare", "mdlread", "mdlwrite", "ncstore", "ncwrite")
        if not asked or (self.words[3:] == ["nowait"] and not self.missing()):
            return None
        held = self.journal.blocks_held(self.stream)
        is_over = len(held | blocks_of(*self.needed())) > self.stream.quota
        return f"error 10 NoViews {len(held)} {self.stream.quota}" if is_over else None

    def no_vacbs(self):
        is_asked = self.verb == "init" and not self.stream.has_map()
        free = self.journal.free_views()
        return f"error 12 NoVacbs {free}" if is_asked and free < self.quota() else None

    def quota(self):
        return int(self.words[self.words.index("quota") + 1])

    def not_resident(self):
        missing = self.missing() if self.words[3:] == ["nowait"] else []
        return f"error 11 NotResident {missing[0]}" if missing else None

    def dirty_in_span(self):
        return sorted(page for page in self.stream.touches if has(self.span(), page)) if self.verb == "discard" else []

    def unsettled(self):
        found = [page for page in self.dirty_in_span() if page in self.stream.unknown]
        return f"error 22 Unsettled {found[0]}" if found else None

    def grown(self):
        found = [page for page in self.dirty_in_span() if self.stream.has_grown(page)]
        return f"error 23 Grown {found[0]}" if found else None

    def pages_are_there(self, answer):
        needs = self.verb in ("cread", "cwrite", "zero", "map", "pin", "prepare", "mdlread", "mdlwrite")
        return not (needs or (self.verb == "ahead" and answer == "ok whole")) or not self.missing()

    # ---- what a call does, and answers

    def do(self):
        does = getattr(self, f"do_{self.verb}", None)
        wants("a call is one that docs/SCRIPTS.md has", does is not None, self.text)
        return does() or "ok"

    def place(self):
        return self.journal.place

    def do_init(self):
        stream, makes = self.stream, not self.stream.has_map()
        if makes:
            stream.allocation, stream.size, valid = map(int, self.words[1:4])
            stream.set_valid(valid, self.place())
            stream.quota, stream.temporary, stream.had_map = self.quota(), "temporary" in self.words, True
        stream.objects.add(self.file)

    def do_uninit(self):
        stream = self.stream
        if stream.objects == {self.file} and len(self.words) > 1 and int(self.words[1]) < stream.size:
            stream.resize(int(self.words[1]), self.place())
        stream.objects.discard(self.file)
        stream.kept.pop(self.file, None)
        self.journal.close_map(stream)
        return "ok false" if stream.has_map() else "ok true"

    def do_cread(self):
        content = self.stream.answer(self.begin, self.end - self.begin)
        if content:
            self.stream.kept[self.file] = self.stream.kept[self.file][-1:] + [(self.begin, self.begin + len(content))]
        return f"ok {printed(content)}"

    def do_cwrite(self):
        self.stream.change(self.begin, content_of(self.words[2]), self.place())

    def do_zero(self):
        self.stream.change(self.begin, bytes(self.end - self.begin), self.place())

    def make_hold(self, kind, exclusive=False):
        self.journal.made += 1
        self.journal.holds[self.journal.made] = Hold(kind, self.number, self.stream, self.file, self.begin, self.end, exclusive)
        return f"ok hold {self.journal.made}"

    def do_map(self):
        return self.make_hold("map")

    def do_pin(self):
        return self.make_hold("pin", "excl" in self.words)

    def do_prepare(self):
        told = self.make_hold("pin", "excl" in self.words)
        if self.is_zeroing:
            self.stream.change(self.begin, bytes(self.end - self.begin), self.place())
            self.journal.holds[self.journal.made].owed.update(pages_of(self.begin, self.end))
        return told

    def do_pinmapped(self):
        wants("a map is made a pin", self.hold.kind == "map", self.text)
        self.hold.kind, self.hold.exclusive = "pin", "excl" in self.words
        return f"ok hold {self.hold_id}"

    def lies_in(self, *kinds):
        is_so = self.hold.kind in kinds and self.hold.begin <= self.begin and self.end <= self.hold.end
        wants("a hold is of the kind and has the range", is_so, self.text)

    def do_hread(self):
        self.lies_in("map", "pin")
        return f"ok {printed(self.stream.answer(self.begin, self.end - self.begin))}"

    def do_pwrite(self):
        self.lies_in("pin")
        self.stream.change(self.begin, content_of(self.words[2]), self.place())
        self.hold.owed.update(pages_of(self.begin, self.end))

    def do_stamp(self):
        self.stream.touch(self.hold.pages(), self.place(), int(self.words[1]) if len(self.words) > 1 else None)
        self.hold.owed.clear()

    def do_unpin(self):
        del self.journal.holds[self.hold_id]

    def do_repin(self):
        self.begin, self.end = self.hold.begin, self.hold.end
        return self.make_hold("repin")

    def do_mdlread(self):
        return self.make_hold("read chain")

    def do_mdlwrite(self):
        return self.make_hold("write chain")

    def do_mdlget(self):
        self.lies_in("read chain")
        return f"ok {printed(self.stream.answer(self.begin, self.end - self.begin))}"

    def do_mdlput(self):
        self.lies_in("write chain")
        self.stream.change(self.begin, content_of(self.words[2]), self.place())

    def do_ncread(self):
        content = self.stream.answer(self.begin, PAGE)
        if content:
            self.journal.trace.append(f"read {self.stream.name} {self.begin // PAGE}")
        is_so = not self.missing() or self.stream.transfer is None
        wants("a page that is not there is read while no transfer is under way", is_so, self.text)
        return f"ok {printed(content)}"

    def do_ncstore(self):
        stream, page = self.stream, self.begin // PAGE
        wants("a page is stored while no transfer is under way", stream.transfer is None, self.text)
        self.journal.is_flushed_for(stream, page, self.text)
        stream.change(self.begin, content_of(self.words[2])[:min(PAGE, stream.size - self.begin)], self.place())
        stream.bring(page)
        wants("no more blocks are mapped than the quota", len(stream.blocks) <= stream.quota, self.text)

    def do_ncwrite(self):
        last, page = self.journal.last_text.get(self.number, ""), (self.stream.name, self.begin // PAGE)
        is_behind = last.startswith(f"ncstore {self.words[0]} {self.words[1]} ") and page in self.journal.written[self.number]
        wants("a noncached write ends behind its own store and its transfer", is_behind, self.text, last)

    def do_sizes(self):
        self.stream.allocation = int(self.words[1])
        self.stream.resize(int(self.words[2]), self.place())
        self.journal.close_map(self.stream)

    def do_state(self):
        stream = self.stream
        return f"ok state {stream.allocation} {stream.size} {stream.valid} {'-' if stream.log is None else stream.log}"

    def do_flush(self):
        pages_behind = [old for _, stream, old in self.journal.synced.get(self.number, []) if stream is self.stream]
        is_synced = any(not any(has(self.span(), page) for page in old) for old in pages_behind)
        wants("a flush is done behind a good sync that found its pages written", is_synced, self.text, pages_behind)

    def do_purge(self):
        left = [page for page in self.stream.resident if has(self.span(), page)]
        wants("no page of a purge is there", not left, self.text, left)

    def do_discard(self):
        stream = self.stream
        wants("a discard comes while no transfer is under way", stream.transfer is None, self.text)
        for page in self.dirty_in_span():
            stream.plain[page] = stream.disk.get(page, FILL)
            del stream.touches[page]
        stream.let_go([page for page in stream.resident if has(self.span(), page)])
        self.journal.close_map(stream)

    def do_setlog(self):
        self.stream.log = int(self.words[1])

    def do_dirty(self):
        rows = []
        for name in self.journal.names:
            stream = self.journal.streams[name]
            if stream.log == int(self.words[0]):
                rows += [(name, page, stream.stamps(page)) for page in sorted(stream.touches) if stream.stamps(page)]
        return f"ok rows {len(rows)}" + "".join(f"; {name} {page} {min(stamps)} {max(stamps)}" for name, page, stamps in rows)

    def do_lsns(self):
        stamps = [lsn for page in self.stream.touches for lsn in self.stream.stamps(page)]
        return f"ok lsns {min(stamps)} {max(stamps)}" if stamps else "ok none"

    def do_isdirty(self):
        return "ok true" if self.journal.dirty() else "ok false"

    def do_granularity(self):
        self.stream.granularity[self.file] = int(self.words[1])

    def do_attributes(self):
        self.stream.no_read_ahead, self.stream.no_write_behind = self.words[1] == "1", self.words[2] == "1"

    def do_fthreshold(self):
        self.stream.threshold = int(self.words[1])

    def do_ask(self):
        stream, kept = self.stream, self.stream.kept[self.file]
        granule = stream.granularity[self.file]
        start = -(-self.end // granule) * granule
        is_asked = (self.end > self.begin and len(kept) == 2 and kept[0][1] == kept[1][0] and kept[1][1] == self.begin
                    and not stream.no_read_ahead and start < stream.size)
        return f"ok ahead {self.words[0]} {start} {min(granule, stream.size - start)}" if is_asked else "ok none"

    def do_ahead(self):
        held = self.journal.blocks_held(self.stream)
        is_part = self.file not in self.stream.objects or len(held | blocks_of(*self.needed())) > self.stream.quota
        return "ok part" if is_part else "ok whole"

    def do_canwrite(self):
        return "ok true" if self.journal.may_go(self.stream, -(-int(self.words[1]) // PAGE)) else "ok false"
