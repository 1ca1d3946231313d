"""Finds which entries of a printed journal each line of a script left.

A line of `run` leaves entries of its caller's pass, as `tools/answers.py` has them; those of `steps` stand in the order of the lines.
"""
import re

from answers import SIMPLE, Words, begins, behind, entries_of, front, is_short, maybe, nothing
from printed import Broken

PASS = ("begin", "end", "sync", "fillfailed", "logfailed", "recordfailed", "record")
# What a line may leave behind its own last entry, and how it begins.
TAILS = {"settle": "sync ", "checkpoint": "flushed ", "ncwrite": "out ", "logflush": "flushed ", "post": "posted "}


def left_of(text):
    """The pass of an entry, and the entry without it as `tools/answers.py` has it; none where no line tells it."""
    kind, number, *words = text.split(" ")
    if kind == "call":
        return number, " ".join(words[1:])
    if kind == "scan":
        return number.rstrip(";"), f"scan {text.count('; ')}"
    if kind in ("append", "defer", "locked", "unlocked", "tested", "record"):
        return number, " ".join([kind, *words])
    return None


class Links:
    """For each line of a script the places of its entries, the last of which tells its answer."""

    def __init__(self, script, mode, entries, told):
        self.script, self.mode, self.entries, self.told = script, mode, entries, told
        self.own, self.all = {}, {}
        if mode == "steps":
            self.link_pass(script.setup_lines(), "0")
            self.link_steps()
        else:
            self.link_pass(script.setup_lines(), "0")
            for caller in script.callers:
                self.link_pass([line for line in script.actions if line.caller == caller], str(caller))
        self.gather()

    # ---- a line of run: its pass has just the entries of its lines

    def link_pass(self, lines, number):
        left = [(place, left_of(text)) for place, text in self.entries]
        left = [(place, it[1]) for place, it in left if it and it[0] == number]
        texts, words = [text for _, text in left], Words([line.words[0] for line in self.script.streams])
        takes, places = [], [{0}]
        for line in lines:
            take = self.take_of(line, words)
            found = set().union(*(take(texts, place) for place in places[-1]))
            takes.append(take if found else nothing)
            places.append(found or places[-1])
        end = max(places[-1])
        for at in reversed(range(len(lines))):
            begin = max(place for place in places[at] if end in takes[at](texts, place))
            self.own[lines[at].number] = [place for place, _ in left[begin:end]]
            end = begin

    def take_of(self, line, words):
        """The entries that a line may have left."""
        answer = self.told.get(line.number, "")
        try:
            if line.is_fail and answer.startswith("error") and not is_short(answer):
                return begins(f"{words.call(line)} = {answer}")
            if line.verb == "stream" and "stored" in line.words:
                return self.of_stored(line)
            if line.verb == "tick":
                return maybe(begins("scan "))
            if line.verb == "ahead" and answer.startswith("error"):
                return maybe(begins("ahead ", f" = {answer}"))
            return entries_of(line, answer, words, self.mode)
        except (Broken, KeyError, IndexError, ValueError):
            return nothing
        finally:
            self.bind(line, answer, words)

    @staticmethod
    def bind(line, answer, words):
        made = re.fullmatch(r"ok hold (\d+)", answer)
        if made and line.verb != "pinmapped":
            words.bind(line, answer)

    @staticmethod
    def of_stored(line):
        """The calls of a stored stream, whose sizes its record may have said, and of its settling."""
        name = line.words[0]
        settles = front(begins(f"state {name}:0 "), begins(f"flush {name}:0 "), begins(f"record {name} "))
        return maybe(behind(begins(f"init {name}:0 "), maybe(begins(f"setlog {name}:0 ")), settles))

    # ---- a line of steps: the entries stand in the order of the lines

    def link_steps(self):
        names = [line.words[0] for line in self.script.streams]
        at = max((self.own[line.number][-1] for line in self.script.setup_lines() if self.own.get(line.number)), default=0)
        by_caller = {caller: Words(names) for caller in self.script.callers}
        for line in sorted(self.script.actions, key=lambda it: it.number):
            answer = self.told.get(line.number, "")
            pattern = self.pattern(line, answer, by_caller[line.caller])
            found = next((place for place, text in self.entries[at:] if pattern and pattern.match(text)), None)
            self.own[line.number] = [found] if found else []
            at = found or at
            self.bind(line, answer, by_caller[line.caller])

    def pattern(self, line, answer, words):
        """How the entry of a line of steps begins, or none where it leaves none."""
        if answer in ("no hold", "not now") or is_short(answer):
            return None
        page, is_bad = " ".join(line.words[:2]), answer == "faulted"
        forms = {
            "fill": f"fillfailed {line.caller} {page}$" if is_bad else f"in {page} ", "out": f"out {page}$",
            "begin": rf"begin {line.caller} {page}$", "end": rf"end \d+ {page} ", "sync": rf"sync {line.caller} {page} ",
            "append": "logfailed " if is_bad else rf"append {line.caller} ", "scan": rf"scan {line.caller}\b",
            "defer": rf"defer {line.caller} ", "post": "posted ", "logflush": "flushed ",
        }
        if is_bad and line.verb in ("logflush", "begin"):
            return re.compile("logfailed ")
        if line.verb in forms:
            return re.compile(forms[line.verb])
        if line.verb not in SIMPLE and line.verb not in ("ncread", "ncwrite"):
            return None
        return re.compile(rf"call {line.caller} \d+ {re.escape(words.call(line))} = {re.escape(answer)}$")

    # ---- the steps of pages and disks beside them

    def gather(self):
        """The places of each line with the steps of pages, disks and logs that are told apart as its own."""
        lines = sorted(self.script.setup_lines() + self.script.actions, key=lambda it: it.number)
        is_single, at = self.mode == "steps" or self.script.is_single(), {}
        for line in lines:
            who = "all" if is_single else str(line.caller)
            begin = at.get(who, 0)
            end = max(self.own.get(line.number) or [begin])
            if is_single and self.mode == "run":
                end = self.tail(line, end)
            at[who] = max(begin, end)
            own = set(self.own.get(line.number, []))
            self.all[line.number] = [place for place, text in self.entries[begin:end]
                                     if place in own or is_single or self.is_of(text, str(line.caller))]

    @staticmethod
    def is_of(text, number):
        words = text.split(" ")
        return words[0] in PASS and words[1] == number

    def tail(self, line, end):
        """The place behind which the entries of the next line begin."""
        answer = self.told.get(line.number, "")
        many = {"post": answer.count(" ") - 1 if answer != "ok posted -" else 0}.get(line.verb, 1)
        if line.verb == "tick":
            return self.written(answer, end)
        while line.verb in TAILS and answer.startswith("ok") and many and self.begins_at(end, TAILS[line.verb]):
            end, many = end + 1, many - (line.verb != "ncwrite")
        return end

    def begins_at(self, at, front_of_text):
        return at < len(self.entries) and self.entries[at][1].startswith(front_of_text)

    def written(self, answer, end):
        """The place of the last transfer of a tick."""
        told = re.match(r"ok tick picked \d+ written (\d+) skipped \d+ failed (\d+)", answer)
        many = int(told[1]) + int(told[2]) if told else 0
        while many and end < len(self.entries) and re.match("flushed|begin|end|logfailed", self.entries[end][1]):
            many -= bool(re.match("end|logfailed", self.entries[end][1]))
            end += 1
        return end
