"""The timeline of each run of a cutting, as `timetable` prints it, worked out from the words of an accepted sheet by the
rules of docs/SHEET.md and docs/USING.md, and from nothing of the planner's."""

NO_ROAD = 0xFFFFFFF


class Sheet:
    """What accepted words say."""

    def __init__(self, words):
        self.numbers = {kind: [] for kind in range(16)}
        self.wheelchairs, self.customers = 0, [{}]
        last = None
        for word in words:
            kind, value = word >> 28, word & 0xFFFFFFF
            self.numbers[kind].append(value)
            if kind == 0 and last == 2:
                self.wheelchairs = value
            elif kind == 7:
                self.customers.append({7: value})
            elif kind in (0, 8, 9, 10, 11):
                self.customers[-1][kind] = value
            last = kind
        self.places, self.seats = self.numbers[1][0], self.numbers[2][0]
        self.rest = self.numbers[6]
        self.distances = self.numbers[12]
        self.times = self.numbers[13] or self.distances

    def leg(self, table, a, b):
        return table[a * self.places + b]

    def limit(self, kind):
        return self.numbers[kind][0] if self.numbers[kind] else None


class Bus:
    """The bus of one run on its way, with the lines that are told so far."""

    def __init__(self, sheet, number, place):
        self.sheet, self.number, self.place = sheet, number, place
        self.at, self.time, self.seats, self.wheelchairs = 0, 0, 0, 0
        self.distance, self.lateness, self.pay = 0, 0, 0
        self.rested, self.lines, self.shut = False, [], []

    def drive(self, to):
        self.distance += self.sheet.leg(self.sheet.distances, self.at, to)
        self.time += self.sheet.leg(self.sheet.times, self.at, to)
        self.at = to

    def call(self, k, c):
        self.drive(c)
        customer = self.sheet.customers[c]
        line = f"run {self.number} call {k} customer {c}: arrive {self.time},"
        if k == self.place:
            earliest, latest, duration = self.sheet.rest
            start = max(self.time, earliest)
            if start <= latest:
                self.rested, self.time = True, start + duration
                line += f" break {start} to {self.time},"
        window = ""
        if 9 in customer:
            window = self.enter(c, customer)
        line += f" serve {self.time}"
        self.time += customer[8]
        self.seats += customer[7]
        self.wheelchairs += customer.get(0, 0)
        self.lines.append(f"{line}, leave {self.time}, seats {self.seats}, wheelchairs {self.wheelchairs}{window}")

    def enter(self, c, customer):
        ready, due = customer[9], customer[10]
        late = max(self.time - due, 0)
        if late and 11 not in customer:
            self.shut.append(f"run {self.number} customer {c}: window shut at {due}, ready at {self.time}")
        elif late:
            self.lateness += late
            self.pay += late * customer[11]
        self.time = max(self.time, ready)
        slack = f"late {self.time - due}" if self.time > due else f"slack {due - self.time}"
        return f", window {ready} to {due}, {slack}"

    def faults(self):
        sheet, run = self.sheet, f"run {self.number}"
        told = list(self.shut)
        excused = self.place == 0 and sheet.rest and self.time < sheet.rest[0]
        if sheet.rest and not self.rested and not excused and not told:
            told.append(f"{run} without its break")
        if self.seats > sheet.seats:
            told.append(f"{run} overloaded: {self.seats} of {sheet.seats} seats")
        if self.wheelchairs > sheet.wheelchairs:
            told.append(f"{run} overloaded: {self.wheelchairs} of {sheet.wheelchairs} wheelchair places")
        for kind, value, words in ((4, self.distance, "far"), (5, self.time, "long")):
            if sheet.limit(kind) is not None and value > sheet.limit(kind):
                told.append(f"{run} too {words}: {value} of {sheet.limit(kind)}")
        return told


def timeline(sheet, number, calls, place):
    """The lines of one run."""
    stops = [0, *calls, 0]
    for leg, (a, b) in enumerate(zip(stops, stops[1:]), 1):
        if NO_ROAD in (sheet.leg(sheet.distances, a, b), sheet.leg(sheet.times, a, b)):
            return [f"run {number} leg {leg}: no road"]
    bus = Bus(sheet, number, place)
    for k, c in enumerate(calls, 1):
        bus.call(k, c)
    bus.drive(0)
    home = f"run {number}: home at {bus.time}, distance {bus.distance}, lateness {bus.lateness}, pay {bus.pay}"
    return [*bus.lines, home, *bus.faults()]


def timelines(words, cutting):
    """The text for the runs of a cutting, whose lines are the listing's."""
    sheet, told, number = Sheet(words), [], 0
    for line in cutting.splitlines():
        said = line.split()
        if said[:1] != ["run"]:
            continue
        number += 1
        rest = said.index("rest") if "rest" in said else len(said)
        calls = [int(word) for word in said[1:rest]]
        place = int(said[rest + 1]) if rest < len(said) else 0
        told += timeline(sheet, number, calls, place)
    return "".join(line + "\n" for line in told)
