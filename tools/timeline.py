"""Goes through the journal of a printed text once, and keeps what a picture of it needs: labels, transfers, holds, locks, contents."""

PAGE, LONG = 4096, 56
FAULTS = ("ReadFault", "WriteFault", "LogFault")
CHANGES = ("cwrite", "zero", "pwrite", "mdlput", "ncstore")
HOLDS = ("map", "pin", "prepare", "repin", "mdlread", "mdlwrite")
INK, GREY, ORANGE, RED, BLUE, GREEN = "#222", "#888", "#c60", "#c00", "#36c", "#282"


def journal_of(text):
    """The entries of the section `journal`: place and words."""
    entries, inside = [], False
    for line in text.splitlines():
        if line in ("setup", "journal", "table", "trace") or line.startswith("caller "):
            inside = line == "journal"
        elif inside:
            place, _, rest = line.partition(" ")
            entries.append((int(place), rest))
    return entries


def pages_of(at, length):
    """The pages that a range of bytes touches."""
    return range(at // PAGE, (at + length - 1) // PAGE + 1) if length else range(0)


def length_of(data):
    """How many bytes a printed list of runs has."""
    if data == "-":
        return 0
    return sum(int(it.partition("x")[2] or 1) for it in data.split(","))


def short(text):
    """A text whose middle is left out where it is long."""
    return text if len(text) <= LONG else f"{text[:LONG // 2]} … {text[-LONG // 4:]}"


def named(pages):
    """Pages as a label has them."""
    numbers = sorted(pages)
    if len(numbers) == 1:
        return f"page {numbers[0]}"
    is_run = numbers[-1] - numbers[0] == len(numbers) - 1
    return f"pages {numbers[0]} to {numbers[-1]}" if is_run else f"{len(numbers)} pages"


class Call:
    """A call that ended, as its entry says it."""

    def __init__(self, words):
        said, _, self.answer = words.partition(" = ")
        _, number, self.nth, *self.words = said.split(" ")
        self.caller, self.verb = int(number), self.words[0]
        self.is_done = self.answer.startswith("ok")
        self.is_fault = self.answer.startswith("error") and self.answer.split(" ")[2] in FAULTS

    def stream(self):
        return self.words[1].split(":")[0]

    def colour(self):
        return INK if self.is_done else RED if self.is_fault else ORANGE

    def text(self):
        return f"{' '.join(map(short, self.words))} = {short(self.answer)}"


class Hold:
    """A hold: who made it where, and which pages it has."""

    def __init__(self, place, caller, stream, pages):
        self.place, self.caller, self.stream, self.pages, self.end = place, caller, stream, pages, None


class Run:
    """What the entries of a journal say, gone through once."""

    def __init__(self, entries, at=None):
        self.entries, self.at = entries, at
        self.labels = []        # lane, place, text, colour
        self.transfers = []     # stream, page, place of the begin, place of the end or None, colour
        self.holds, self.locks = {}, {}
        self.open, self.image, self.contents = {}, {}, {}
        self.logs, self.newest, self.flushed = {}, {}, {}
        # Of each page the newest stamp that its log owes before its write, and those that a transfer under way took.
        self.taken, self.sizes, self.objects = {}, {}, {}
        self.callers, self.streams, self.log_names, self.queues = [], [], [], []
        self.crash = {}         # of the moment that was chosen: stream, page: names of contents
        for place, words in entries:
            self.step(place, words)
            if place == at:
                self.crash = {key: list(names) for key, names in self.contents.items()}

    def note(self, lane, place, text, colour=INK):
        known = {"caller": self.callers, "stream": self.streams, "log": self.log_names, "queue": self.queues}[lane[0]]
        if lane[1] not in known:
            known.append(lane[1])
        self.labels.append((lane, place, text, colour))

    def step(self, place, words):
        kind, *rest = words.split(" ")
        getattr(self, "at_" + kind)(place, words, rest)

    def at_call(self, place, words, rest):
        call = Call(words)
        self.note(("caller", call.caller), place, call.text(), call.colour())
        if not call.is_done:
            return
        does = {"setlog": self.set_log, "unpin": self.end_hold, "stamp": self.stamp, "init": self.open_object, "uninit": self.close_object,
                "sizes": self.resize, "discard": self.discard}.get(call.verb, self.make_hold if call.verb in HOLDS else None)
        if does:
            does(place, call)
        stream, pages = self.changed(call)
        if pages:
            self.change(place, stream, pages)

    def change(self, place, stream, pages):
        for page in pages:
            self.touch(stream, page)
        self.note(("stream", stream), place, f"{named(pages)} change{'s' if len(pages) == 1 else ''}", GREEN)

    def set_log(self, _, call):
        self.logs[call.stream()] = call.words[2]

    def end_hold(self, place, call):
        if call.words[1] in self.holds:
            self.holds[call.words[1]].end = place

    def open_object(self, _, call):
        """The first open of a stream without a cache map gives it its sizes; a map that waits for dirty pages keeps its own."""
        stream = call.stream()
        self.objects.setdefault(stream, set()).add(call.words[1])
        self.sizes.setdefault(stream, int(call.words[3]))

    def close_object(self, _, call):
        stream = call.stream()
        objects = self.objects.setdefault(stream, set())
        is_last = objects <= {call.words[1]}
        objects.discard(call.words[1])
        if is_last and len(call.words) > 2:
            self.cut(stream, min(int(call.words[2]), self.sizes.get(stream, 0)))

    def resize(self, _, call):
        self.cut(call.stream(), int(call.words[3]))

    def cut(self, stream, size):
        """Pages past a new size are dirty no more, and owe the log nothing."""
        self.sizes[stream] = size
        for key in [it for it in self.newest if it[0] == stream and it[1] * PAGE >= size]:
            del self.newest[key]

    def discard(self, _, call):
        stream, span = call.stream(), [int(it) for it in call.words[2:4]]
        within = pages_of(span[0], span[1] - span[0]) if span else None
        for key in [it for it in self.newest if it[0] == stream and (within is None or it[1] in within)]:
            del self.newest[key]

    def make_hold(self, place, call):
        """A hold is made; a repin is a hold of its own on the pages of its pin, and a map that is pinned keeps its hold."""
        number = "#" + call.answer.split(" ")[2]
        if call.words[1].startswith("#"):
            of = self.holds[call.words[1]]
            stream, pages = of.stream, of.pages
        else:
            stream = call.words[1].split(":")[0]
            pages = pages_of(int(call.words[2]), int(call.words[3]))
        self.holds[number] = Hold(place, call.caller, stream, pages)
        if call.verb == "prepare" and "zero" in call.words and pages:
            self.change(place, stream, pages)

    def stamp(self, _, call):
        hold = self.holds[call.words[1]]
        if len(call.words) > 2:
            for page in hold.pages:
                key = hold.stream, page
                self.newest[key] = max(self.newest.get(key, 0), int(call.words[2]))

    def changed(self, call):
        """The stream and the pages that a call which was done changes."""
        if call.verb not in CHANGES:
            return "", []
        at, word = int(call.words[2]), call.words[3]
        stream = self.holds[call.words[1]].stream if call.words[1].startswith("#") else call.stream()
        if call.verb == "ncstore":
            return stream, [at]
        return stream, pages_of(at, int(word) - at if call.verb == "zero" else length_of(word))

    def touch(self, stream, page):
        """A page of which something is said has the opening content at first."""
        self.contents.setdefault((stream, page), ["opening"])
        self.image.setdefault((stream, page), "opening")

    def at_in(self, place, words, rest):
        self.touch(rest[0], int(rest[1]))
        self.note(("stream", rest[0]), place, f"page {rest[1]} comes in, {'read' if rest[2] == 'disk' else 'zeros'}", BLUE)

    def at_out(self, place, words, rest):
        self.note(("stream", rest[0]), place, f"page {rest[1]} goes out", BLUE)

    def at_fillfailed(self, place, words, rest):
        self.note(("stream", rest[1]), place, f"page {rest[2]} cannot be read", RED)

    def at_begin(self, place, words, rest):
        stream, page = rest[1], int(rest[2])
        self.touch(stream, page)
        self.contents[stream, page].append(f"as of {place}")
        log, newest = self.logs.get(stream), self.newest.pop((stream, page), None)
        behind = f", behind log {log} flushed to {self.flushed.get(log, 0)}" if log is not None and newest else ""
        self.note(("stream", stream), place, f"write of page {page} begins{behind}")
        self.open[stream], self.taken[stream] = (page, place), newest

    def at_end(self, place, words, rest):
        stream, page, how = rest[1], int(rest[2]), rest[3]
        colour, taken = INK if how == "ok" else RED, self.taken.pop(stream, None)
        if how != "ok" and taken:
            self.newest[stream, page] = max(taken, self.newest.get((stream, page), 0))
        self.image[stream, page] = f"as of {self.open[stream][1]}" if how == "ok" else None
        self.transfers.append((stream, page, self.open.pop(stream)[1], place, colour))
        self.note(("stream", stream), place, f"write of page {page} ends: {how}", colour)

    def at_sync(self, place, words, rest):
        stream, how = rest[1], rest[2]
        self.note(("stream", stream), place, f"sync: {how}", INK if how == "ok" else RED)
        for key, image in self.image.items():
            if how == "ok" and key[0] == stream and image:
                self.contents[key] = [image]

    def at_record(self, place, words, rest):
        self.note(("stream", rest[1]), place, f"record: size {rest[2]}, valid {rest[3]}: {rest[4]}", INK if rest[4] == "ok" else RED)

    def at_recordfailed(self, place, words, rest):
        self.note(("stream", rest[1]), place, "record cannot be read", RED)

    def at_append(self, place, words, rest):
        self.note(("log", rest[1]), place, f"LSN {rest[2]}")

    def at_flushed(self, place, words, rest):
        self.flushed[rest[0]] = rest[1]
        self.note(("log", rest[0]), place, f"flushed to {rest[1]}")

    def at_logfailed(self, place, words, rest):
        self.note(("log", rest[1]), place, "fails", RED)

    def at_defer(self, place, words, rest):
        self.note(("caller", int(rest[0])), place, f"defers write {rest[1]} of {rest[2]}, pages: {rest[3]}")

    def at_posted(self, place, words, rest):
        self.note(("queue", "deferred"), place, f"write {rest[0]} is posted")

    def at_scan(self, place, words, rest):
        picked = words.split("; ")[1:]
        self.note(("caller", int(rest[0].rstrip(";"))), place, f"picks {short(', '.join(picked)) or 'nothing'}")

    def at_locked(self, place, words, rest):
        is_given = rest[-2] == "ok"
        self.note(("caller", int(rest[0])), place, " ".join(["lock", *rest[1:]]), INK if is_given else ORANGE)
        if is_given:
            self.locks[rest[1].split(":")[0], rest[-1]] = [int(rest[0]), place, None]

    def at_unlocked(self, place, words, rest):
        self.note(("caller", int(rest[0])), place, " ".join(["unlock", *rest[1:]]), INK if rest[-1] == "true" else ORANGE)
        if rest[-1] == "true" and (rest[1].split(":")[0], rest[2]) in self.locks:
            self.locks[rest[1].split(":")[0], rest[2]][2] = place

    def at_tested(self, place, words, rest):
        self.note(("caller", int(rest[0])), place, " ".join(["test", *rest[1:]]), ORANGE if "conflict" in rest else GREY)
