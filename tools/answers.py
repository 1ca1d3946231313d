"""Whether the answers of a text are those of its journal: each pass's entries have to be what its lines leave, line after line.

A line leaves entries as docs/SCRIPTS.md says; one that is refused with `NoMemory` or `JournalFull` leaves a front of them, and no
entry of the call that found no memory or no room. Where a line may leave several such lists each is tried.
"""
import re

from printed import NO_MEMORY, NO_ROOM, Journal, Broken, numbered, sections_of, wants
from scripts import PAGE, content_of, printed

SIMPLE = ("init", "uninit", "cread", "cwrite", "zero", "map", "pin", "pinmapped", "prepare", "hread", "pwrite", "stamp", "unpin", "repin",
          "unrepin", "mdlread", "mdlwrite", "mdlget", "mdlput", "mdldone", "mdlabort", "sizes", "state", "flush", "purge", "discard",
          "setlog", "dirty", "lsns", "isdirty", "granularity", "attributes", "fthreshold", "ask", "canwrite", "ncstore")
SILENT = ("logflush", "levels", "post", "fill", "out", "begin", "end", "sync")
ENDS = ("unpin", "unrepin", "mdldone", "mdlabort")
ON_HOLDS = ("hread", "pwrite", "stamp", "repin", "pinmapped", "mdlget", "mdlput", *ENDS)


REFUSALS = {
    1: "NotCached", 2: "BeyondSize #", 3: "BeyondValid #", 4: "TooLong #", 5: "ViewBoundary", 6: "Unaligned", 7: "BadSizes", 8: "Held #",
    9: "Busy #", 10: "NoViews # #", 11: "NotResident #", 12: "NoVacbs #", 13: "JournalFull #", 17: "LogFull #", 18: "QueueFull",
    19: "NoMemory", 20: "BadGranularity", 21: "NoLog #", 22: "Unsettled #", 23: "Grown #", 24: "GapTooLong #", 25: "LockConflict #",
}
REFUSED = re.compile("error (" + "|".join(f"{number} {form}".replace("#", r"\d+") for number, form in REFUSALS.items()) + r")( done \d+)?")
# How the answers begin of lines that leave no entry which tells them.
DONE = {
    "restart": r"ok restart \d+", "stream": "ok", "logflush": "ok", "levels": r"ok levels \d+", "post": r"ok posted (-|\d+( \d+)*)",
    "fill": "ok", "out": "ok", "begin": "ok", "end": "ok", "sync": "ok", "scan": "ok", "append": r"ok lsn \d+",
    "defer": r"ok deferred \d+", "lock": r"ok lock \d+", "unlock": "ok (true|false)", "settle": r"ok state \d+ \d+ \d+ (-|\d)",
    "checkpoint": r"ok lsn \d+", "write": "ok", "update": r"ok lsn \d+",
    "tick": r"ok tick picked \d+ written \d+ skipped \d+ failed 0", "complete": r"ok (none|done t\d+ \d+ .*)",
    "ahead": r"ok (none|ahead \S+ \d+ \d+ (whole|part))",
}
# What a line of the shim is refused by what its state told, or by its append, without an entry that tells so.
BY_STATE = re.compile("error (2|3|4|5|6|17|21|24) ?")


def is_short(answer):
    """Whether an answer tells of memory or of room that was wanting."""
    return NO_MEMORY in answer or NO_ROOM in answer


def file_of(word):
    return word if ":" in word else f"{word}:0"


def has_form(line, answer):
    """Whether an answer is one of those that docs/SCRIPTS.md has for a line; where its entry tells it, that is compared."""
    if not answer.startswith("ok"):
        return answer in ("no hold", "not now") or REFUSED.fullmatch(answer) is not None
    return line.is_fail or line.verb not in DONE or re.fullmatch(DONE[line.verb], answer) is not None


class Words:
    """The words of a caller, the holds that its answers gave them, and how many reads it queued."""

    def __init__(self, streams):
        self.holds, self.queued, self.streams = {}, 0, streams

    def call(self, line):
        """A line of one call as the journal writes it."""
        verb, words = line.verb, list(line.words)
        if verb in ON_HOLDS:
            hold = f"#{self.holds.get(words[0], '?')}"
            if verb in ENDS:
                return f"unpin {hold}"
            words = [hold] + (words[2:] if verb == "repin" else words[1:])
        elif verb not in ("dirty", "isdirty"):
            words[0] = file_of(words[0])
        if verb in ("map", "pin", "prepare", "mdlread", "mdlwrite"):
            del words[3]
        if verb == "init" and "quota" not in words:
            words[4:4] = ["quota", "16"]
        if verb in ("cwrite", "pwrite", "mdlput", "ncstore"):
            words[2] = printed(content_of(words[2]))
        return " ".join([verb, *words])

    def bind(self, line, answer):
        """Notes the hold that a line made, or the read that it queued."""
        if answer.startswith("ok queued "):
            self.queued += 1
            wants("the queued reads of a caller count up", answer == f"ok queued {self.queued}", line, answer)
        made = re.fullmatch(r"ok hold (\d+)", answer)
        if made and line.verb != "pinmapped":
            self.holds[line.words[1] if line.verb == "repin" else line.words[3]] = made[1]


# ---- lists of entries: each takes the entries and a place, and answers the places behind what it may take.

def is_text(text):
    return lambda entries, at: {at + 1} if at < len(entries) and entries[at] == text else set()


def begins(front, end=""):
    """An entry that begins and ends so."""
    return lambda entries, at: {at + 1} if at < len(entries) and entries[at].startswith(front) and entries[at].endswith(end) else set()


def behind(*parts):
    """These, one behind the other."""
    def take(entries, at):
        places = {at}
        for part in parts:
            places = set().union(*(part(entries, place) for place in places))
        return places
    return take


def one_of(*parts):
    return lambda entries, at: set().union(*(part(entries, at) for part in parts))


def often(part):
    """This, any number of times."""
    def take(entries, at):
        places, found = {at}, {at}
        while places:
            places = set().union(*(part(entries, place) for place in places)) - found
            found |= places
        return found
    return take


def front(*parts):
    """The first of these, any number of them."""
    return one_of(nothing, *(behind(*parts[:many]) for many in range(1, len(parts) + 1)))


def nothing(_, at):
    return {at}


def maybe(part):
    return one_of(nothing, part)


def entries_of(line, answer, words, mode):
    """The list of entries that a line may leave which was answered so."""
    verb = line.verb
    if line.is_fail or answer in ("no hold", "not now", "faulted"):
        return nothing
    if verb == "unrepin" and line.words[1:]:
        return behind(is_text(words.call(line) + " = ok"), nothing if is_short(answer) else begins("flush ", f" = {answer}"))
    if verb in SIMPLE or (verb in ("ncread", "ncwrite") and mode == "steps"):
        return nothing if is_short(answer) else is_text(f"{words.call(line)} = {answer}")
    if verb in SILENT:
        return nothing
    return {
        "stream": of_stream, "restart": of_restart, "ncread": of_noncached_read, "ncwrite": of_noncached_write, "append": of_append,
        "defer": of_defer, "tick": of_scan, "scan": of_scan, "lock": of_lock, "unlock": of_lock, "settle": of_settle,
        "checkpoint": of_checkpoint, "aread": of_queued_read, "complete": of_completion, "ahead": of_ahead, "read": of_read,
        "write": of_write, "update": lambda line, answer: of_update(line, answer, words),
    }[verb](line, answer)


def of_restart(_, __):
    return nothing


def of_stream(line, answer):
    name, (size, valid), options = f"{line.words[0]}:0", line.words[1:3], line.words[3:]
    quota = options[options.index("quota") + 1] if "quota" in options else "16"
    temporary = " temporary" if "temporary" in options else ""
    calls = [f"init {name} {size} {size} {valid} quota {quota}{temporary} = "]
    calls += [f"setlog {name} {options[options.index('log') + 1]} = "] if "log" in options else []
    if answer == "ok":
        return behind(*(is_text(f"{call}ok") for call in calls))
    if is_short(answer):
        return front(*(is_text(f"{call}ok") for call in calls))
    return one_of(*(behind(*(is_text(f"{it}ok") for it in calls[:many]), is_text(calls[many] + answer)) for many in range(len(calls))))


def of_pages(answer, is_done, page):
    """So many pages done, and the refusal that ends the call."""
    told = re.fullmatch(r"(error .*) done (\d+)", answer)
    if not told:
        return None
    ends = nothing if is_short(answer) else page(int(told[2]), told[1])
    return behind(*(is_done(k) for k in range(int(told[2]))), ends)


def of_noncached_read(line, answer):
    file, first = file_of(line.words[0]), int(line.words[1]) // PAGE
    refusal = of_pages(answer, lambda k: begins(f"ncread {file} {first + k} = ok"),
                       lambda k, why: is_text(f"ncread {file} {first + k} = {why}"))
    if refusal:
        return refusal
    content, many = content_of(answer[3:]), int(line.words[2]) // PAGE
    pieces = [content[at:at + PAGE] for at in range(0, len(content), PAGE)]
    # A page that came short ends the call; so does one that answers no bytes, which the answer does not show.
    whole = [is_text(f"ncread {file} {first + k} = ok {printed(piece)}") for k, piece in enumerate(pieces)]
    is_ended = len(pieces) == many
    last = nothing if is_ended else begins(f"ncread {file} {first + len(pieces)} = ok")
    return behind(*whole, last if is_ended or not (pieces and len(pieces[-1]) < PAGE) else maybe(last))


def of_noncached_write(line, answer):
    file, first, content = file_of(line.words[0]), int(line.words[1]) // PAGE, content_of(line.words[2])

    def stored(k):
        return is_text(f"ncstore {file} {first + k} {printed(content[k * PAGE:(k + 1) * PAGE])} = ok")

    def done(k):
        return behind(stored(k), is_text(f"ncwrite {file} {first + k} = ok"))
    told = re.fullmatch(r"(error .*) done (\d+)", answer)
    if told:
        k = int(told[2])
        ends = maybe(stored(k)) if is_short(answer) else is_text(f"ncwrite {file} {first + k} = {told[1]}")
        return behind(*(done(it) for it in range(k)), ends)
    return behind(*(done(k) for k in range(len(content) // PAGE)))


def of_append(line, answer):
    told = re.fullmatch(r"ok lsn (\d+)", answer)
    return is_text(f"append {line.words[0]} {told[1]} {printed(content_of(line.words[1]))}") if told else nothing


def of_defer(line, answer):
    told = re.fullmatch(r"ok deferred (\d+)", answer)
    pages = -(-int(line.words[1]) // PAGE)
    retry = " retry" if line.words[2:] else ""
    return is_text(f"defer {told[1]} {line.words[0].split(':')[0]} {pages}{retry}") if told else nothing


def of_scan(line, answer):
    told = re.match(r"ok tick picked (\d+) written (\d+) skipped (\d+)", answer)
    if not told:
        return begins("scan ") if answer == "ok" and line.verb == "scan" else maybe(begins("scan "))
    picked, written, skipped = map(int, told.groups())
    wants("a tick counts each page that it picked once", picked == written + skipped, line, answer)
    return is_text(f"scan {picked}")


def of_lock(line, answer):
    if is_short(answer):
        return nothing
    told = "conflict " + answer.split(" ")[-1] if answer.startswith("error 25 ") else answer.removeprefix("ok lock ").removeprefix("ok ")
    ended = f"ok {told}" if line.verb == "lock" and told.isdigit() else told
    return is_text(" ".join([f"{line.verb}ed", file_of(line.words[0]), *line.words[1:], ended]))


def of_settle(line, answer):
    file = file_of(line.words[0])
    calls = [begins(f"state {file} = "), begins(f"flush {file} = "), begins(f"record {file.split(':')[0]} ")]
    return behind(*calls) if answer.startswith("ok") else front(*calls)


def of_checkpoint(line, answer):
    calls = [begins(f"dirty {line.words[0]} = "), often(begins("state ")), often(begins("flush ")), begins(f"append {line.words[0]} ")]
    return behind(*calls) if answer.startswith("ok") else front(*calls)


def of_queued_read(line, answer):
    call = f"cread {file_of(line.words[0])} {line.words[1]} {line.words[2]} nowait = "
    if answer.startswith("ok queued") or answer == "error 18 QueueFull":
        return begins(f"{call}error 11 NotResident ")
    # A read whose page is missing may find no memory for its place in the queue.
    return maybe(begins(call)) if is_short(answer) else is_text(call + answer)


def of_completion(_, answer):
    told = re.fullmatch(r"ok done t\d+ \d+ (.*)", answer)
    return nothing if not told or is_short(answer) else begins("cread ", f" = {told[1]}")


def of_ahead(_, answer):
    told = re.fullmatch(r"ok (ahead \S+ \d+ \d+) (whole|part)", answer)
    return is_text(f"{told[1]} = ok {told[2]}") if told else nothing


def tested(file, at, length, kind):
    """The test of a range against the locks, which may find one."""
    return begins(f"tested {file} {at} {min(at + length, 2**64 - 1)} {kind}")


def refused(answer, *calls):
    """A front of a line's calls that is answered so: one of them tells the refusal, or the test does, or the state alone."""
    def take(entries, at):
        def tells(end):
            own = entries[at:end]
            if is_short(answer):
                return True
            if answer.startswith("error 25 "):
                return own and own[-1].startswith("tested ") and own[-1].endswith(f" conflict {answer.split(' ')[-1]}")
            if any(entry.endswith(f" = {answer}") for entry in own):
                return True
            return BY_STATE.match(answer) and own and own[-1].split(" ")[0] in ("state", "unpin")
        return {end for end in front(*calls)(entries, at) if tells(end)}
    return take


def of_read(line, answer):
    file, path, at, length = file_of(line.words[0]), line.words[1], int(line.words[2]), int(line.words[3])
    state, test = begins(f"state {file} = "), tested(file, at, length, "read")
    hold = begins(f"{'map' if path == 'mapped' else 'pin'} {file} ")
    block = one_of(behind(hold, begins("hread #"), begins("unpin #")), behind(hold, begins("unpin #")), hold)
    chain = (begins(f"mdlread {file} "), begins("mdlget #"), begins("unpin #"))
    behind_test = {
        "cached": (begins(f"cread {file} {at} {length} = "),),
        "noncached": (often(begins(f"ncread {file} ")),),
        "descriptor": (state, one_of(nothing, behind(*chain), behind(*chain[:1]), behind(chain[0], chain[2]))),
        "mapped": (state, often(block)),
        "pinned": (state, often(block)),
    }[path]
    if not answer.startswith("ok"):
        return refused(re.sub(r" done \d+$", "", answer), state, test, *behind_test)
    return is_read(answer, behind(state, test, *behind_test))


def is_read(answer, part):
    """Entries of a read, each done, whose bytes are together those of the answer."""
    def tells(own):
        reads = [entry.partition(" = ")[2] for entry in own if re.match("(cread|hread|mdlget|ncread) ", entry)]
        return all(read.startswith("ok ") for read in reads) and f"ok {printed(b''.join(content_of(read[3:]) for read in reads))}" == answer
    return lambda entries, at: {end for end in part(entries, at) if tells(entries[at:end])}


def of_write(line, answer):
    file, at, length = file_of(line.words[0]), int(line.words[1]), len(content_of(line.words[2]))
    state, change = begins(f"state {file} = "), begins(f"cwrite {file} {at} {printed(content_of(line.words[2]))} = ")
    calls = (state, tested(file, at, length, "write"), state, maybe(begins(f"sizes {file} ")), often(begins(f"zero {file} ")), change)
    return behind(*calls) if answer == "ok" else refused(answer, *calls)


def of_update(line, answer, words):
    file, at, content = file_of(line.words[0]), int(line.words[1]), content_of(line.words[2])
    state, end = begins(f"state {file} = "), begins("unpin #")
    record = bytes([words.streams.index(file.split(":")[0])]) + at.to_bytes(8, "little") + len(content).to_bytes(4, "little") + content
    lsn = answer.removeprefix("ok lsn ") if answer.startswith("ok") else ""
    behind_pin = (state, begins("append ", f"{lsn} {printed(record)}"), begins("pwrite #"), begins("stamp #"))
    pin, test = begins(f"pin {file} {at} {len(content)} excl = "), tested(file, at, len(content), "write")
    if answer.startswith("ok"):
        return behind(state, test, pin, *behind_pin, end)
    return refused(answer, state, test, one_of(pin, behind(pin, front(*behind_pin), end)))


def look_at_pass(lines, told, entries, mode, who, streams):
    """The lines of a pass have just its entries."""
    words, places = Words(streams), {0}
    for line in lines:
        wants("a line is answered as docs/SCRIPTS.md has it", has_form(line, told[line.number]), line, told[line.number])
        take = entries_of(line, told[line.number], words, mode)
        found = set().union(*(take(entries, place) for place in places))
        wants(f"the entries of {who} are those that its lines leave", found, line, told[line.number],
              f"behind entry {min(places)} of its own", entries[min(places):min(places) + 3])
        words.bind(line, told[line.number])
        places = found
    wants(f"each entry of {who} is of one of its lines", len(entries) in places, entries[max(places):max(places) + 3])


def look_at_answers(lines, section, what):
    """Each line has one answer, in the order of the lines."""
    wants(f"each line of {what} has one answer, in their order", [number for number, _ in section] == [line.number for line in lines],
          [number for number, _ in section][:40], [line.number for line in lines][:40])
    return dict(section)


def faults_of(script, mode, text):
    """What is wrong with a whole text, as sentences."""
    try:
        look_at(script, mode, text)
    except Broken as broken:
        return [str(broken)]
    except (ValueError, KeyError, IndexError, TypeError, AttributeError) as error:
        return [f"the text is as docs/SCRIPTS.md says: {error!r}"]
    return []


def look_at(script, mode, text):
    wants("a text ends with a line feed", text == "" or text.endswith("\n"), text[-80:])
    sections = sections_of(text)
    heads = ["setup"] * bool(script.setup_lines()) + [f"caller t{caller}" for caller in script.callers]
    wants("the sections stand in their order", list(sections)[:len(heads)] == heads, list(sections), heads)
    rest = [head for head in ("journal", "table", "trace") if head in sections]
    wants("the sections stand in their order", list(sections)[len(heads):] == rest, list(sections))
    journal = Journal(script)
    entries = numbered(sections.get("journal", []))
    wants("the entries are numbered from 1", [number for number, _ in entries] == list(range(1, len(entries) + 1)))
    for _, entry in entries:
        journal.take(entry)
    told = look_at_answers(script.setup_lines(), numbered(sections.get("setup", [])), "the setup")
    look_at_pass(script.setup_lines(), told, journal.left.pop(0, []), mode, "the setup", journal.names)
    for caller in script.callers:
        lines = [line for line in script.actions if line.caller == caller]
        told = look_at_answers(lines, numbered(sections[f"caller t{caller}"]), f"t{caller}")
        look_at_pass(lines, told, journal.left.pop(caller, []), mode, f"t{caller}", journal.names)
    ticks, steps = journal.left.pop(17, []), journal.left.pop(18, [])
    wants("the lazy writer leaves scans alone", all(entry.startswith("scan ") for entry in ticks), ticks[:3])
    wants("the read-ahead worker leaves its steps alone", all(entry.startswith("ahead ") for entry in steps), steps[:3])
    wants("no entry is of another pass", not journal.left, dict(journal.left))
    table = sections.get("table", [])
    wants("the table has the pages that are dirty at the end", table == journal.table(), table[:5], journal.table()[:5])
    wants("the trace has what went to disks and logs", sections.get("trace", []) == journal.trace,
          sections.get("trace", [])[:5], journal.trace[:5])
