"""Reads scripts, and the cases of crates/cases/data, by the grammars of docs/SCRIPTS.md and crates/cases/README.md.

What is here reads right scripts alone; whether a line is right the program says.
"""
import os
import re

TOP = os.path.dirname(os.path.dirname(os.path.realpath(__file__)))
DATA = f"{TOP}/crates/cases/data"
PAGE = 4096
HEADERS = ("stream", "journal", "threshold", "restart", "workers")


class Line:
    """An action of a script, or a line that is answered in the setup: its number, caller, phase, verb and other words."""

    def __init__(self, number, caller, phase, words):
        self.number, self.caller, self.phase = number, caller, phase
        self.is_fail = words[0] == "fail"
        self.verb, *self.words = words[1:] if self.is_fail else words

    def __repr__(self):
        return f"line {self.number}: t{self.caller} {self.verb} {' '.join(self.words)[:80]}"


class Script:
    """A right script: its limits, its `stream` and `restart` lines, and its actions."""

    def __init__(self, content):
        self.journal, self.threshold, self.workers = 1048576, 1024, (0, 0)
        self.streams, self.restarts, self.actions = [], [], []
        phase = 1
        for number, words in words_of(content):
            if words[0] == "phase":
                phase += 1
                continue
            caller = int(words.pop(0)[1:]) if re.fullmatch(r"t\d+", words[0]) else 1
            self.take(Line(number, caller, phase, words))
        self.callers = sorted({line.caller for line in self.actions})

    def take(self, line):
        if line.verb == "journal":
            self.journal = int(line.words[0])
        elif line.verb == "threshold":
            self.threshold = int(line.words[0])
        elif line.verb == "workers":
            self.workers = tuple(map(int, line.words))
        else:
            {"stream": self.streams, "restart": self.restarts}.get(line.verb, self.actions).append(line)

    def setup_lines(self):
        """The lines that are answered in the setup: restarts first, then streams."""
        return self.restarts + self.streams

    def is_single(self):
        """Whether what it prints hangs on no schedule: one caller a phase, and no workers."""
        callers = {}
        for line in self.actions:
            callers.setdefault(line.phase, set()).add(line.caller)
        return self.workers == (0, 0) and all(len(of_phase) == 1 for of_phase in callers.values())


def lines_of(content):
    """The lines of a script's bytes, without their line feeds."""
    lines = content.split(b"\n")
    if lines[-1] == b"":
        lines.pop()
    return lines


def words_of(content):
    """The numbers and the words of the lines that say something."""
    for number, line in enumerate(lines_of(content), 1):
        line = line.removesuffix(b"\r")
        if line.startswith(b"#") or not line.strip(b" "):
            continue
        yield number, [word.decode("ascii") for word in line.split(b" ") if word]


def content_of(word):
    """The bytes that a word of bytes stands for."""
    if word == "-":
        return b""
    parts = []
    for item in word.split(","):
        pair, times, count = item.partition("x")
        parts.append(bytes.fromhex(pair) * int(count) if times else bytes.fromhex(item))
    return b"".join(parts)


def printed(content):
    """Bytes as a text has them, as their longest runs of equal ones."""
    if not content:
        return "-"
    runs = re.finditer(rb"(?s)(.)\1*", content)
    return ",".join(f"{run[0][0]:02X}" if run.end() - run.start() == 1 else f"{run[0][0]:02X}x{run.end() - run.start()}" for run in runs)


class Case:
    """A case: the file and its number there, its title, its words and its script."""

    def __init__(self, file, number, title):
        self.file, self.number, self.title = file, number, title
        self.words, self.script, self.is_troubled = ["run", "s"], b"", False

    def name(self):
        return f"{self.file}:{self.number}"

    def mode(self):
        """`run` or `steps`, where the words are one of these with a file, else none."""
        return self.words[0] if len(self.words) == 2 and self.words[0] in ("run", "steps") and self.words[1] == "s" else None


def counted(lines, n):
    """The lines of a repetition as they stand the time n, counted from 0."""
    def value(found):
        factor, added = found[1], found[2]
        return str(int(factor or 1) * n + int(added or 0))
    return re.sub(r"\{(?:(\d+)\*)?n(?:\+(\d+))?\}", value, lines)


def block_at(lines, at):
    """The text of the block of indented lines from a place on, its repetitions written out, and the place behind it."""
    text = []
    while at < len(lines) and lines[at].startswith("  "):
        line = lines[at][2:]
        at += 1
        if not line.startswith("%repeat "):
            text.append(f"{line}\n")
            continue
        end = lines.index("  %end", at)
        body, times = "".join(f"{it[2:]}\n" for it in lines[at:end]), int(line.split()[1])
        text += [counted(body, n) for n in range(times)] if "{" in body else [body * times]
        at = end + 1
    return "".join(text), at


def script_of_block(text):
    """The bytes of a script as a block has it: two dots that end the last line stand for no line feed."""
    return text.removesuffix("..\n").encode()


def cases_of(name):
    """The cases of a file of data, by its name without ending; a `.txt` is one case of its own."""
    if os.path.exists(f"{DATA}/{name}.txt"):
        case = Case(name, 1, f"{name}.txt")
        with open(f"{DATA}/{name}.txt", "rb") as file:
            case.script = file.read()
        case.words = ["steps" if name in ("failed-disk", "random-steps") else "run", "s"]
        yield case
    if not os.path.exists(f"{DATA}/{name}.cases"):
        return
    with open(f"{DATA}/{name}.cases", encoding="utf-8") as file:
        lines = file.read().split("\n")
    at, number, case = 0, 0, None
    while at < len(lines):
        line = lines[at]
        at += 1
        if line.startswith("case "):
            if case:
                yield case
            number += 1
            case = Case(name, number, line[5:])
        elif line.startswith("words"):
            case.words = ["" if word == '""' else word for word in line.split()[1:]]
        elif line == "script":
            text, at = block_at(lines, at)
            case.script = script_of_block(text)
        elif line.startswith("script "):
            with open(f"{DATA}/{line.split()[1]}", "rb") as script:
                case.script = script.read()
        elif re.match(r"(disk|log|device|source|sink|sweep|during|held)", line):
            case.is_troubled = True
    if case:
        yield case


def all_names():
    """The names of the files of data, without their endings."""
    return sorted({name.rsplit(".", 1)[0] for name in os.listdir(DATA)})


def cases_named(names):
    """The cases of these names, `NAME` for all of a file and `NAME:N` for one; without names all."""
    for name in names or all_names():
        file, _, number = name.partition(":")
        found = [case for case in cases_of(file) if not number or case.number == int(number)]
        if not found:
            raise SystemExit(f"there is no case {name} in crates/cases/data")
        yield from found
