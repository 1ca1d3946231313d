"""Explains a printed text line by line of its script: the answers, the refusals' sentences, the state before each entry, the routines."""
import re
import textwrap

from fronts import Fronts
from grammar import first_wrong
from links import Links
from printed import Broken, numbered, sections_of
from routines import Routines
from scripts import TOP, Script, lines_of, words_of

WIDTH, MOST = 140, 12
PLAIN = {
    "no hold": "the line that bound the word made no hold, or it is not of the kind needed; no call was made",
    "not now": "the event may not happen at this moment",
    "faulted": "the event's disk or log failed",
}
STATUSES = {
    1: "the words are none of the program's forms, or the run did not begin", 3: "the file of the script can't be read",
    4: "the text can't be written", 5: "the script is too long", 6: "memory was wanting", 7: "there are too few devices",
}


def sentences():
    """The sentence of each refusal, and the names of its numbers in their order, from the enum itself."""
    with open(f"{TOP}/crates/cc_entry/src/error.rt", encoding="utf-8") as file:
        found = re.findall(r'#\[error\("(.*)"\)\]\n\s+([A-Z]\w+)(?: \{ (.*) \})?,', file.read())
    return {name: (sentence, re.findall(r"(\w+):", fields)) for sentence, name, fields in found}


class Refusals:
    """The sentences of refusals."""

    def __init__(self):
        self.known = sentences()

    def of(self, answer):
        """Why an answer is no `ok`, or none."""
        told = re.search(r"error \d+ (\w+)((?: \d+)*)(?: done (\d+))?$", answer)
        if not told:
            return PLAIN.get(answer)
        sentence, names = self.known.get(told[1], (told[1], []))
        for name, number in zip(names, told[2].split()):
            sentence = sentence.replace("{" + name + "}", number)
        return sentence + (f"; {told[3]} pages were done before" if told[3] else "")


def short(text, most=WIDTH - 20):
    return text if len(text) <= most else f"{text[:most - 1]}…"


def wrapped(text, indent):
    return textwrap.wrap(text, WIDTH - 4, initial_indent=" " * indent, subsequent_indent=" " * (indent + 4), break_long_words=False,
                         break_on_hyphens=False)


class Text:
    """A text that was printed: the answers by the numbers of their lines, and the entries of the journal."""

    def __init__(self, text):
        sections = sections_of(text)
        self.told = {number: answer for head, lines in sections.items() if head == "setup" or head.startswith("caller ")
                     for number, answer in numbered(lines)}
        self.entries = numbered(sections.get("journal", []))


class Explanation:
    """The lines of a script, explained."""

    def __init__(self, content, mode, text, is_brief):
        self.content, self.is_brief = content, is_brief
        self.script, self.text = Script(content), Text(text)
        self.links = Links(self.script, mode, self.text.entries, self.text.told)
        self.refusals, self.routines = Refusals(), Routines()
        self.lines = {line.number: line for line in self.script.setup_lines() + self.script.actions}
        self.fronts = {} if is_brief else self.replay()

    def told_at(self, number):
        """The place of the entry that tells the answer of a line, else of its first one, or none."""
        own, answer = self.links.own.get(number, []), self.text.told.get(number, "")
        telling = [place for place in own if self.text.entries[place - 1][1].endswith(f" = {answer}")]
        return (telling or own or [None])[0]

    def replay(self):
        """For each place that tells an answer how the streams of its line stand before it."""
        wanted = {self.told_at(number): line for number, line in self.lines.items() if self.told_at(number)}
        journal, found = Fronts(self.script), {}
        for place, entry in self.text.entries:
            if place in wanted:
                found[place] = [line for name in self.streams_of(journal, wanted[place], entry) for line in journal.front_of(name)]
            journal.take(entry)
        return found

    def streams_of(self, journal, line, entry):
        """The names of the streams on which an entry hangs."""
        word = (entry.split(" ")[3:] or [""])[1:2] if entry.startswith("call ") else line.words[:1]
        name = (word or [""])[0].split(":")[0]
        if name.startswith("#") and int(name[1:]) in journal.holds:
            return [journal.holds[int(name[1:])].stream.name]
        if name in journal.streams:
            return [name]
        return [it for it in journal.names if journal.streams[it].touches]

    def explain(self):
        said = {number for number, _ in words_of(self.content)}
        for number, raw in enumerate(lines_of(self.content), 1):
            yield short(f"{number:>5}  {raw.decode('ascii', 'replace').rstrip()}", WIDTH).rstrip()
            if number in said:
                yield from self.line(number)
        beside = [number for number, text in self.text.entries if re.match(r"(call|scan|begin|end) 1[78]\b", text)]
        if beside:
            yield ""
            yield f"       {len(beside)} entries are of the lazy writer (pass 17) and of the read-ahead worker (pass 18), beside the lines."

    def line(self, number):
        line, answer = self.lines.get(number), self.text.told.get(number)
        if line is None:
            return
        yield f"       {short(answer) if answer is not None else 'the text has no answer for it'}"
        why = self.refusals.of(answer or "")
        if why:
            yield from wrapped(f"why: {why}", 7)
        if self.is_brief:
            return
        yield from self.entries_of(number)
        yield from self.front_of(number)
        for told in self.routines.lines_of(line.verb, number):
            yield from wrapped(told, 9)

    def entries_of(self, number):
        places = self.links.all.get(number, [])
        for place in places[:MOST]:
            yield f"         entry {place}: {short(self.text.entries[place - 1][1], WIDTH - 30)}"
        if len(places) > MOST:
            yield f"         and {len(places) - MOST} more entries, up to {places[-1]}"

    def front_of(self, number):
        place = self.told_at(number)
        if place not in self.fronts or not self.fronts[place]:
            return
        yield f"         before entry {place}:"
        for told in self.fronts[place]:
            yield from wrapped(told, 11)


def wrong_line(content, mode, text, status):
    """Why a script has a wrong line, in the words of docs/SCRIPTS.md, or none where it has none."""
    told, found = re.match(r"syntax at line (\d+)\n", text), first_wrong(content, mode)
    by_program = int(told[1]) if told else None
    if found:
        number, reason = found
        raw = lines_of(content)[number - 1].decode("ascii", "replace")
        yield short(f"{number:>5}  {raw}", WIDTH)
        yield from wrapped(f"line {number} is wrong: {reason}", 7)
    if by_program != (found[0] if found else None) and (by_program or status in (0, 2)):
        says = f"line {by_program} is wrong" if by_program else "no line is wrong"
        yield from wrapped(f"The program says that {says}, and by the checker here {f'line {found[0]}' if found else 'none'} is.", 7)


def explained(content, mode, text, status, is_brief):
    """The lines of the explanation of what a script printed."""
    told = list(wrong_line(content, mode, text, status))
    if told or status == 2:
        yield from told
        return
    if status:
        yield f"ntcache ended with status {status}: {STATUSES.get(status, 'a status that it does not have')}"
        if not text:
            return
    try:
        yield from Explanation(content, mode, text, is_brief).explain()
    except Broken as broken:
        yield f"The text is none that ntcache prints of this script: {broken}"
