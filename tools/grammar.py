"""Says which line of a script is the first wrong one, and why: the grammar of docs/SCRIPTS.md, line after line."""
import re

from scripts import content_of, lines_of

MOST_LINES, MOST_BYTES, MOST_LEN, MOST_PHASES = 65536, 33554432, 2097152, 1000
# The words behind each verb. `[..]` may be left out; a word in lower case stands for itself; `HOLD+` binds a word, `HOLD` uses one;
# `COUNT` is a number that counts in the script's total, and `LEN` one of at most 2097152 that does too.
BOTH = """
init FILE NUMBER NUMBER NUMBER [quota QUOTA] [temporary]
uninit FILE [NUMBER]
cread FILE NUMBER LEN [nowait]
cwrite FILE NUMBER BYTES
zero FILE FROM TO
map FILE NUMBER COUNT HOLD+
pin FILE NUMBER COUNT HOLD+ [excl]
pinmapped HOLD [excl]
prepare FILE NUMBER COUNT HOLD+ [zero] [excl]
hread HOLD NUMBER LEN
pwrite HOLD NUMBER BYTES
stamp HOLD [LSN]
unpin HOLD
repin HOLD HOLD+
unrepin HOLD
mdlread FILE NUMBER COUNT HOLD+
mdlwrite FILE NUMBER COUNT HOLD+
mdlget HOLD NUMBER LEN
mdlput HOLD NUMBER BYTES
mdldone HOLD
mdlabort HOLD
sizes FILE NUMBER NUMBER
state FILE
flush FILE [FROM TO]
purge FILE [FROM TO]
discard FILE [FROM TO]
isdirty
dirty LOG
lsns FILE
setlog FILE LOG
append LOG BYTES
logflush LOG LSN
granularity FILE NUMBER
attributes FILE BIT BIT
fthreshold FILE SMALL
canwrite FILE NUMBER
defer FILE NUMBER [retry]
post
stream NAME NUMBER NUMBER [quota QUOTA] [temporary] [log LOG]
journal ENTRIES
threshold PAGES
"""
OF_RUN = """
unrepin HOLD [through]
ncread FILE NUMBER LEN
ncwrite FILE NUMBER BYTES
read FILE PATH NUMBER LEN
write FILE NUMBER BYTES
update FILE NUMBER BYTES
lock FILE FROM TO [excl]
unlock FILE NUMBER
levels FILE
settle FILE
checkpoint LOG
ask FILE NUMBER COUNT
ahead
aread FILE NUMBER LEN
complete
tick
phase
restart LOG
workers TICKS TICKS
stream NAME NUMBER NUMBER [quota QUOTA] [temporary] [log LOG] [stored]
"""
OF_STEPS = """
fill STREAM PAGE
out STREAM PAGE
begin STREAM PAGE
end STREAM PAGE
sync STREAM
ncread FILE PAGE
ncstore FILE PAGE BYTES
ncwrite FILE PAGE
scan
"""
HEADERS = ("stream", "journal", "threshold", "restart", "workers")
UNCALLED = (*HEADERS, "phase", "out", "end")
NO_CALLS = ("append", "logflush", "defer", "post", "scan", "fill", "out", "begin", "end", "sync")
# Of a word that is a number: the least and the greatest.
BOUNDS = {
    "NUMBER": (0, 2**64 - 1), "COUNT": (0, 2**64 - 1), "FROM": (0, 2**64 - 1), "TO": (0, 2**64 - 1), "LEN": (0, MOST_LEN), "LOG": (0, 3),
    "LSN": (1, 2**62), "PAGE": (0, 2**51 - 1), "QUOTA": (8, 64), "BIT": (0, 1), "SMALL": (0, 2**32 - 1), "ENTRIES": (64, 1048576),
    "PAGES": (1, 16384), "TICKS": (0, 1000),
}
PATHS = ("cached", "mapped", "pinned", "descriptor", "noncached")
# The kinds of hold that a verb makes, and those that it needs.
MAKES = {"map": "map", "pin": "pin", "prepare": "pin", "repin": "repin", "mdlread": "read chain", "mdlwrite": "write chain"}
NEEDS = {
    "pinmapped": ("map",), "hread": ("map", "pin"), "pwrite": ("pin",), "stamp": ("pin",), "unpin": ("map", "pin"), "repin": ("pin",),
    "unrepin": ("repin",), "mdlget": ("read chain",), "mdlput": ("write chain",), "mdldone": ("read chain", "write chain"),
    "mdlabort": ("write chain",),
}
ENDS = ("unpin", "unrepin", "mdldone", "mdlabort")


class Wrong(Exception):
    """A line is wrong: the sentence that says why."""


def forms_of(*texts):
    return {line.split(" ")[0]: line.split(" ")[1:] for text in texts for line in text.strip().split("\n")}


FORMS = {"run": forms_of(BOTH, OF_RUN), "steps": forms_of(BOTH, OF_STEPS)}


def number_of(word, kind):
    """The number that a word says, within the bounds of its kind."""
    low, high = BOUNDS[kind]
    if not re.fullmatch("0|[1-9][0-9]*", word):
        raise Wrong(f"`{word[:40]}` is no number: decimal digits without a leading zero")
    if not low <= int(word[:30]) <= high or len(word) > 20:
        raise Wrong(f"`{word[:40]}` is not from {low} to {high}")
    return int(word)


def bytes_of(word):
    """The bytes of a word, which is BYTES."""
    item = "([0-9A-F]{2})+|[0-9A-F]{2}x[1-9][0-9]{0,6}"
    bad = [it for it in word.split(",") if not re.fullmatch(item, it)] if word != "-" else []
    if bad:
        raise Wrong(f"`{bad[0][:40]}` is no item of bytes: pairs of upper-case hexadecimal digits, or one pair, `x` and a number")
    long = [it for it in word.split(",") if "x" in it and int(it[3:]) > MOST_LEN]
    length = sum(int(it[3:]) if "x" in it else len(it) // 2 for it in word.split(",")) if word != "-" else 0
    if long or length > MOST_LEN:
        raise Wrong(f"a word of bytes says more than {MOST_LEN} bytes")
    return content_of(word)


class Words:
    """The words that are left of a line."""

    def __init__(self, words):
        self.words = list(words)

    def next(self, kind):
        if not self.words:
            raise Wrong(f"a word is missing: {kind}")
        return self.words.pop(0)

    def has(self, word):
        return self.words[:1] == [word]


class Hold:
    """What a word of a caller names."""

    def __init__(self, kind, at, length):
        self.kind, self.at, self.length, self.is_ended = kind, at, length, False


class Reader:
    """A script as far as it is read."""

    def __init__(self, mode):
        self.mode, self.forms = mode, FORMS[mode]
        self.streams, self.once, self.logs = [], set(), set()
        self.total = self.dirty = 0
        self.phases, self.actions = 1, 0
        self.holds, self.callers, self.is_apart = {}, set(), False

    # ---- lines

    def take(self, words):
        caller = 1
        is_called = re.fullmatch("t([1-9]|1[0-6])", words[0])
        if is_called:
            caller, words = int(words[0][1:]), words[1:]
        verb, words = self.verb(words)
        if is_called and verb in UNCALLED:
            raise Wrong(f"`{verb}` takes no caller word")
        if verb == "fail":
            verb, words = self.verb(words)
            if verb in NO_CALLS or verb in HEADERS or verb == "fail":
                raise Wrong(f"`fail` stands before a call, and `{verb}` is none")
        if verb in HEADERS:
            self.header(verb, Words(words))
        elif verb == "phase":
            self.phase(words)
        else:
            self.action(verb, caller, Words(words))

    def verb(self, words):
        if not words:
            raise Wrong("a verb is missing")
        other = FORMS["steps" if self.mode == "run" else "run"]
        if words[0] not in self.forms and not (self.mode == "steps" and words[0] == "fail"):
            is_other = words[0] in other or words[0] == "fail"
            raise Wrong(f"`{words[0][:40]}` is no verb" + (f" of `{self.mode}`" if is_other else ""))
        return words[0], words[1:]

    def phase(self, words):
        if words:
            raise Wrong("nothing stands behind `phase`")
        self.phases += 1
        if self.phases > MOST_PHASES + 1:
            raise Wrong(f"`phase` stands at most {MOST_PHASES} times")
        self.callers, self.is_apart = set(), False

    def header(self, verb, words):
        found = self.words_of(verb, words, 0)
        if self.actions:
            raise Wrong(f"`{verb}` stands before the first action")
        if verb in ("journal", "threshold", "workers"):
            if verb in self.once:
                raise Wrong(f"`{verb}` stands at most once")
            self.once.add(verb)
        if verb == "restart":
            if self.streams or found["LOG"] in self.logs:
                raise Wrong("`restart` stands before the first stream, and at most once for a log")
            self.logs.add(found["LOG"])
        if verb == "stream":
            self.stream(found["NAME"])

    def stream(self, name):
        if name in self.streams:
            raise Wrong(f"there is a stream `{name}` already")
        if len(self.streams) == 16:
            raise Wrong("there are at most 16 streams")
        self.streams.append(name)

    def action(self, verb, caller, words):
        self.actions += 1
        found = self.words_of(verb, words, caller)
        self.count(verb, found)
        self.keep_apart(verb, caller)
        own = self.holds.setdefault(caller, {})
        if verb in NEEDS:
            self.use(verb, own[found["HOLD"]], found)
        if verb in MAKES:
            of = own.get(found.get("HOLD"))
            at, length = (of.at, of.length) if of else (found["NUMBER"], found["COUNT"])
            own[found["HOLD+"]] = Hold(MAKES[verb], at, length)

    # ---- words

    def words_of(self, verb, words, caller):
        """The values of a line's words by their kinds; of several of one kind the last."""
        found, form = {}, list(self.forms[verb])
        while form:
            kind = form.pop(0)
            if kind.startswith("["):
                kind = self.option(kind, form, words, found)
            if kind:
                found[kind] = self.value(kind, words.next(kind.rstrip("+")), caller)
        if words.words:
            raise Wrong(f"`{words.words[0][:40]}` is a word too many, or stands in the wrong place")
        if found.get("FROM", 0) > found.get("TO", 2**64):
            raise Wrong("FROM is greater than TO")
        if verb == "ncstore" and len(found["BYTES"]) != 4096:
            raise Wrong("`ncstore` has exactly 4096 bytes")
        return found

    def option(self, word, form, words, found):
        """What is to be read next where an option begins: none where the option is not there."""
        is_alone, name = word.endswith("]"), word.strip("[]")
        is_there = words.has(name) if name.islower() else bool(words.words)
        if is_there and name.islower():
            found[words.next(name)] = True
        if is_there and not name.islower():
            if not is_alone:
                form[0] = form[0].rstrip("]")
            return name
        if is_there and not is_alone:
            return form.pop(0).rstrip("]")
        if not is_there and not is_alone:
            form.pop(0)
        return None

    def value(self, kind, word, caller):
        if kind in BOUNDS:
            return number_of(word, kind)
        known = {"BYTES": bytes_of, "NAME": self.name, "STREAM": self.known_stream, "FILE": self.file, "PATH": self.path}
        if kind in known:
            return known[kind](word)
        return self.hold_word(kind, word, caller)

    @staticmethod
    def name(word):
        if not re.fullmatch("[a-z][a-z0-9]{0,15}", word):
            raise Wrong(f"`{word[:40]}` is no name: a lower-case letter, then up to 15 lower-case letters or digits")
        return word

    def known_stream(self, word):
        if word not in self.streams:
            raise Wrong(f"no earlier line has a stream `{word[:40]}`")
        return word

    def file(self, word):
        name, colon, number = word.partition(":")
        self.known_stream(name)
        if colon and not re.fullmatch("[0-9]|1[0-5]", number):
            raise Wrong(f"`{word[:40]}` is no file object: the number is 0 to 15, without a leading zero")
        return word

    @staticmethod
    def path(word):
        if word not in PATHS:
            raise Wrong(f"`{word[:40]}` is no path: {', '.join(PATHS)}")
        return word

    def hold_word(self, kind, word, caller):
        own = self.holds.get(caller, {})
        self.name(word)
        if kind == "HOLD+" and word in own:
            raise Wrong(f"t{caller} bound the word `{word}` before, and a word is bound once")
        if kind == "HOLD" and word not in own:
            raise Wrong(f"t{caller} never bound the word `{word}`")
        return word

    # ---- rules over several lines

    @staticmethod
    def use(verb, hold, found):
        if hold.is_ended:
            raise Wrong(f"an earlier line ended the hold of `{found['HOLD']}`")
        if hold.kind not in NEEDS[verb]:
            raise Wrong(f"`{verb}` needs a {' or a '.join(NEEDS[verb])}, and `{found['HOLD']}` is a {hold.kind}")
        length = found.get("LEN", len(found["BYTES"]) if "BYTES" in found else None)
        if length is not None and not hold.at <= found["NUMBER"] <= found["NUMBER"] + length <= hold.at + hold.length:
            raise Wrong(f"the bytes are not all of the hold's, which are {hold.at} to {hold.at + hold.length}; places are of the stream")
        if verb == "pinmapped":
            hold.kind = "pin"
        hold.is_ended = verb in ENDS

    def count(self, verb, found):
        self.total += found.get("LEN", 0) + found.get("COUNT", 0) + len(found.get("BYTES", b""))
        if self.total > MOST_BYTES:
            raise Wrong(f"the lengths of the lines are together more than {MOST_BYTES} bytes")
        self.dirty += verb == "dirty"
        if self.dirty > 64:
            raise Wrong("a script has at most 64 lines `dirty`")

    def keep_apart(self, verb, caller):
        self.callers.add(caller)
        self.is_apart = self.is_apart or verb == "checkpoint"
        if self.is_apart and len(self.callers) > 1:
            raise Wrong("a phase with a `checkpoint` has lines of one caller alone")


def look_at_bytes(line):
    """The words of a line whose bytes are right, or none where it says nothing."""
    line = line.removesuffix(b"\r")
    bad = [byte for byte in line if not 32 <= byte <= 126]
    if bad:
        raise Wrong(f"byte {bad[0]} is neither a space nor printable ASCII")
    text = line.decode("ascii")
    return [] if text.startswith("#") else [word for word in text.split(" ") if word]


def first_wrong(content, mode):
    """The number of the first wrong line and why it is wrong, or none."""
    reader = Reader(mode)
    for number, line in enumerate(lines_of(content), 1):
        try:
            if number > MOST_LINES:
                raise Wrong(f"there are at most {MOST_LINES} lines")
            words = look_at_bytes(line)
            if words:
                reader.take(words)
        except Wrong as wrong:
            return number, str(wrong)
    return None
