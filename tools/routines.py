"""Says of each verb which Windows routine it is, and whether its rule is documented or our choice: by docs/ROUTINES.md.

No document of the repository says of a rule that it was seen on a running Windows, so no rule is told to be.
"""
import re

from scripts import TOP

# Verbs that no row of docs/ROUTINES.md has: what they are here.
OTHERS = {
    "stream": ("`CcInitializeCacheMap` of object 0, and `CcSetLogHandleForFile` where a log is said", "the line itself is our choice"),
    "fill": ("none", "our choice: in Windows the memory manager reads the page as it is touched"),
    "out": ("none", "our choice: in Windows the memory manager lets the page go"),
    "begin": ("none", "our choice: in Windows the lazy writer or a flush hands the page to the file system"),
    "end": ("none", "our choice: in Windows the transfer ends in the file system"),
    "sync": ("none", "our choice: a sync of the disk"),
    "scan": ("a round of the lazy writer", "our choice: it picks pages, and writes none"),
}
# Where docs/DECISIONS.md has the choices, by its own list of where to look.
DECISIONS = {
    "71 to 74, 221 to 236": ("discard",),
    "221 to 236": ("canwrite", "defer", "post", "tick", "scan", "fthreshold"),
    "139 to 142": ("flush",),
    "144 to 151, 213": ("map", "pin", "pinmapped", "prepare", "hread", "pwrite", "stamp", "unpin", "repin", "unrepin", "mdlread",
                        "mdlwrite", "mdlget", "mdlput", "mdldone", "mdlabort"),
    "152 to 154": ("init", "uninit", "purge"),
    "189, 238 to 241, 248 to 251": ("ask", "ahead", "granularity"),
    "270 to 273, 285 to 287": ("aread", "complete"),
    "155 to 160, 190, 200, 203": ("ncread", "ncwrite", "ncstore"),
    "206, 216, 217, 242, 260 to 262": ("read", "write", "update"),
    "185, 186, 206, 216, 217, 237, 242, 260 to 262": ("lock", "unlock"),
    "244 to 247, 284, 288 to 290, 295 to 298, 300 to 309": ("restart", "checkpoint"),
    "280 to 283": ("settle",),
    "120 to 123": ("fill", "cread", "cwrite", "zero"),
}


def rows():
    """The rows of docs/ROUTINES.md: the routine, what the second cell has, and what is different."""
    with open(f"{TOP}/docs/ROUTINES.md", encoding="utf-8") as file:
        for line in file:
            cells = [cell.strip() for cell in line.strip().strip("|").split("|")]
            if line.startswith("| ") and len(cells) == 3 and cells[0] != "Routine":
                yield cells


def table():
    """For each verb the routines and the differences of its rows."""
    found = {}
    for routine, second, different in rows():
        # The verbs stand last in the cell, behind its last `;` where there is one.
        for verb in set(re.findall(r"`([a-z]+)`", second.split(";")[-1])):
            found.setdefault(verb, []).append((routine, different))
    return found


def standing(routine, different):
    """Whether a rule is documented or our choice."""
    if routine == "none":
        return f"our choice: {different}"
    if not routine.startswith("`"):
        return f"documented that there is one, how it goes is our choice: {different}"
    return f"documented, and different here: {different}" if different else "documented, no difference"


class Routines:
    """What each verb is; what is different is said once for a verb."""

    def __init__(self):
        self.table, self.told = table(), {}
        self.decisions = {verb: numbers for numbers, verbs in DECISIONS.items() for verb in verbs}

    def lines_of(self, verb, number):
        """The lines on a verb that stands in the line of this number."""
        found = [OTHERS[verb]] if verb in OTHERS else [(routine, standing(routine, text)) for routine, text in self.table.get(verb, [])]
        names = " or ".join(dict.fromkeys(routine for routine, _ in found)) or "none"
        if verb in self.told:
            return [f"routine: {names}; its rule as at line {self.told[verb]}"]
        self.told[verb] = number
        lines = [f"routine: {names}"] + [f"rule: {text}" for _, text in found]
        choices = self.decisions.get(verb)
        return lines + ([f"choices: docs/DECISIONS.md {choices}"] if choices else [])
