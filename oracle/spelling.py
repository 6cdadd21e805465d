"""What `sheet write` gives for a text: the words, or the line that says what is wrong and where. Worked out plainly from
docs/USING.md and docs/SHEET.md, word by word, and from nothing of the planner's; and texts with something wrong in them."""
import re

NO_ROAD = 0xFFFFFFF
MOST = 10_000_000
# what stands behind the word that opens a record: further words, `own` for the customer's number, kinds of numbers, and
# kinds whose numbers go on: by rows in a table, to the end in the tour
RECORDS = {
    "places": [1], "capacity": [2], "wheelchairs": [0], "fixed": ["cost", 3], "distance": ["limit", 4],
    "duration": ["limit", 5], "break": ["from", 6, "to", 6, "for", 6], "customer": ["own", "seats", 7], "service": [8],
    "window": [9, "to", 10], "penalty": [11], "distances": ["rows 12"], "times": ["rows 13"], "tour": ["numbers 14"],
}
NAMES = [
    "wheelchairs", "places", "capacity", "fixed cost", "distance limit", "duration limit", "break", "customer", "service",
    "window", "to", "penalty", "distances", "times", "tour",
]
MEANINGS = {
    1: "a number out of range, more than 128 calls, or a call that is no customer",
    2: "ready above due, or earliest above latest",
    3: "F counts wrongly, or something stands behind it",
    21: "a repeated customer, whom an earlier E word has called",
    22: "distance and time disagree on closure",
}
WANTED = {"own": "the customer's number, counted from 1,", "rows 12": "a number of distances", "rows 13": "a number of times",
          "numbers 14": "a customer's number"}


class Wrong(Exception):
    def __init__(self, place, what):
        self.place, self.what = place, what


class Refused(Wrong):
    """By the reader of words."""


class Words:
    """The words so far: which may come next, and what is wrong with one."""

    def __init__(self):
        self.last, self.row, self.places, self.coming, self.before = None, 0, 0, 0, 0
        self.called, self.distances, self.times = set(), [], 0

    def may_come(self):
        full = self.row >= self.places ** 2
        onward = 7 if self.coming else 12
        return {
            None: [1], 0: [3 if self.coming + 1 == self.places else 8], 1: [2], 2: [0, 3], 3: [4, 5, 6, onward],
            4: [5, 6, onward], 5: [6, onward], 6: [6] if self.row < 3 else [onward], 7: [0, 8], 8: [9, 11, onward],
            9: [10], 10: [11, onward], 11: [onward], 12: [13, 14, 15] if full else [12], 13: [14, 15] if full else [13],
            14: [14, 15],
        }[self.last]

    def in_range(self, kind, value):
        if kind in (12, 13):
            return value <= MOST or value == NO_ROAD
        most = {0: 1_000_000 if self.last == 2 else 32_767, 1: 64, 2: 1_000_000, 7: 32_767, 11: 1000, 14: self.places - 1}
        return (1 if kind in (1, 14) else 0) <= value <= most.get(kind, MOST)

    def fault(self, kind, value, index):
        if kind not in self.may_come():
            return " or ".join(NAMES[k] for k in sorted(self.may_come()) if k < len(NAMES)) + " was expected"
        pair = kind == 10 or kind == 6 and self.last == 6 and self.row == 1
        tests = [
            (1, kind != 15 and not self.in_range(kind, value)),
            (21, kind == 14 and value in self.called),
            (2, pair and value < self.before),
            (22, kind == 13 and (value == NO_ROAD) != (self.distances[self.times] == NO_ROAD)),
            (3, kind == 15 and value != index),
        ]
        return next((f"refused {number}: {MEANINGS[number]}" for number, fits in tests if fits), None)

    def take(self, kind, value):
        self.row = self.row + 1 if kind == self.last else 1
        self.last, self.before = kind, value
        if kind == 1:
            self.places, self.coming = value, max(value - 1, 0)
        elif kind == 7:
            self.coming = max(self.coming - 1, 0)
        elif kind == 12:
            self.distances.append(value)
        elif kind == 13:
            self.times += 1
        elif kind == 14:
            self.called.add(value)


class Spelling:
    """The text word by word. The first word that a reader would refuse is the first thing that is wrong."""

    def __init__(self):
        self.awaited, self.fresh, self.made, self.words = [], True, [], Words()

    def wanted(self):
        first = self.awaited[0] if self.awaited else None
        said = "a word that opens a record" if first is None else "a number" if isinstance(first, int) else WANTED.get(first, first)
        return said + " was expected"

    def make(self, kind, value, place):
        if value > NO_ROAD:
            raise Wrong(place, "a number that no word holds")
        fault = self.words.fault(kind, value, len(self.made))
        self.words.take(kind, value)
        self.made.append(kind << 28 | value)
        self.fresh = False
        if fault:
            raise Refused(place, fault)

    def open(self, word, place):
        if word not in RECORDS:
            raise Wrong(place, self.wanted())
        self.awaited = list(RECORDS[word])

    def take(self, word, place):
        if not self.awaited:
            return self.open(word, place)
        first = self.awaited[0]
        value = NO_ROAD if word == "-" else int(word) if re.fullmatch("[0-9]+", word) else None
        if isinstance(first, str) and first.startswith("rows"):
            return self.in_table(int(first[5:]), value, word, place)
        if first == "numbers 14" and value is not None:
            return self.make(14, value, place)
        own = self.words.places - self.words.coming
        if value is None if isinstance(first, int) else (value != own if first == "own" else word != first):
            raise Wrong(place, self.wanted())
        del self.awaited[0]
        if isinstance(first, int):
            self.make(first, value, place)

    def in_table(self, kind, value, word, place):
        words = self.words
        begun = words.last == kind
        if value is None:
            if not begun or words.row < words.places ** 2:
                raise Wrong(place, self.wanted())
            return self.open(word, place)
        if begun and words.row % words.places == 0 and not self.fresh:
            raise Wrong(place, f"row {words.row // words.places} of {NAMES[kind]} has {words.places + 1} numbers, {words.places} wanted")
        self.make(kind, value, place)

    def end_line(self, place):
        words, first = self.words, self.awaited[0] if self.awaited else None
        if isinstance(first, str) and first.startswith("rows"):
            kind = int(first[5:])
            if words.last == kind and words.row < words.places ** 2 and words.row % words.places:
                count = words.row % words.places
                raise Wrong(place, f"row {words.row // words.places + 1} of {NAMES[kind]} has {count} numbers, {words.places} wanted")
        elif first is not None and first != "numbers 14":
            raise Wrong(place, self.wanted())
        self.fresh = True

    def end(self, place):
        if self.awaited[:1] != ["numbers 14"]:
            raise Wrong(place, "the tour was expected")
        self.make(15, len(self.made), place)


def take_line(spelling, line, at):
    """The words of a line, and its end. A number right before the end is judged only where the line may end there."""
    for found in re.finditer(r"[^ \t\r]+", line.split("#")[0]):
        try:
            spelling.take(found[0], at + found.start())
        except Refused:
            if found.end() == len(line):
                spelling.end_line(at + len(line))
            raise
    spelling.end_line(at + len(line))


def written(text):
    """What stands on standard output, and on standard error."""
    spelling, at = Spelling(), 0
    try:
        for line in text.split("\n"):
            take_line(spelling, line, at)
            at += len(line) + 1
        spelling.end(len(text))
    except Wrong as wrong:
        before = text[:wrong.place]
        line, column = before.count("\n") + 1, len(before) - (before.rfind("\n") + 1) + 1
        return b"", f"line {line} column {column}: {wrong.what}\n".encode()
    return b"".join(word.to_bytes(4, "little") for word in spelling.made), b""


def spoiled(text, draw):
    """The text with one to three things changed: a word left out, doubled, put elsewhere or replaced, a line left out,
    doubled or joined to the next, a comment or a blank put in."""
    for _ in range(draw.randint(1, 3)):
        spots = [found.span() for found in re.finditer(r"\S+", text)]
        if not spots:
            return text
        a, b = draw.choice(spots)
        other = text[slice(*draw.choice(spots))]
        ends = [found.start() for found in re.finditer("\n", text)] or [0]
        end = draw.choice(ends)
        start = text.rfind("\n", 0, end) + 1
        text = draw.choice([
            lambda: text[:a] + text[b:],
            lambda: text[:b] + " " + text[a:],
            lambda: text[:a] + other + text[b:],
            lambda: text[:a] + draw.choice(["-", "0", "64", "99999999999", "268435456", "10000001", "x", "seats", "1.5", "-1", "00"]) + text[b:],
            lambda: text[:start] + text[end + 1:],
            lambda: text[:end] + "\n" + text[start:],
            lambda: text[:end] + " " + text[end + 1:],
            lambda: text[:a] + "# " + text[a:],
            lambda: text[:a] + draw.choice(["\n", "\t", "\r\n", " # no\n"]) + text[a:],
            lambda: text[:a + 1] + draw.choice([" ", "\n", "1"]) + text[a + 1:],
        ])()
    return text
