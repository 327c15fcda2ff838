#!/usr/bin/env python3
"""Judges what the program `day` prints, from the definitions alone.

    python3 tools/judge.py PROGRAM [--seed N] [--cases N] [--full N] [--jobs N] [--keep FOLDER]
    python3 tools/judge.py PROGRAM --only FILE...      judges the program on these day files
    python3 tools/judge.py PROGRAM --marks MARKS ...   judges the program MARKS too, which prints the marks of each quote
    python3 tools/judge.py --expect FILE               prints what the file is to be answered, without runs
    python3 tools/judge.py --expect-marks FILE         prints what MARKS is to print for the file
    python3 tools/judge.py --self [--seed N]           tries the judge itself on boards whose answers are found in other ways

It makes day files by the seed (N cases, and N more on boards of full size), runs the program on each, and compares all that it
prints. It prints how many lines of each kind were compared and each disagreement, with a small file that shows it, in
hexadecimal; the exit status is 1 if there is one. --keep puts the files of disagreements into a folder.

Nothing here is taken from the program: no code, no reduction of the board, no shortcut from one question to the next. Each
question is asked of the network of all 32 yards and all periods, and each k gets a greatest flow of its own, from nothing. Each
such flow is checked: it keeps to the network, and a cut is no wider.

The board
    There are 32 yards and the periods 0 to T, T from 1 to 47. A lane goes from a yard to another in 1 to 47 periods. In each
    period t from which it can still arrive by T it has a departure, which takes up to its capacity of pallets from the lane's
    first yard in t to its second yard in t + transit. Pallets start at the origin, in any period and in any number, and never
    wait: what comes to a yard in a period goes on in that period. At a depot, and nowhere else, some or all of it may stay:
    that is delivered.

What is owed
    Each accepted hold that is not released owes its pallets at its depot, in any periods. A plan delivers all owed when each
    depot gets at least what is owed there; which of the delivered pallets count as owed may be chosen freely, and the others
    are further.

A quote
    Each pair of a depot and a period has a rank: the depot's place in the order (ranking 0), or the period (ranking 1). For
    each k, F_k is the most further pallets of ranks below k that a plan which delivers all owed can have. The figure of rank k
    is F_(k+1) - F_k. Here F_k is a greatest flow: departures are arcs; a source feeds each place of the origin; each place of a
    depot leads to the depot's node of what is owed and on to the sink, no more than is owed; and each place of a depot with a
    rank below k leads to the sink without limit. The greatest flow is all owed and F_k together, since a flow that brings all
    owed can be made greatest without bringing less of it. Without any such place it tells whether all owed can be delivered at
    all.

Marks
    A place is live when it is as far from the origin in time as the shortest way needs, and a depot can still be reached from it.
    A cut for k is a set of live places with each one of the origin and no depot's place of a rank below k. It is as wide as the
    capacities of the departures that lead out of it to live places, and what is owed at each depot that has a live place in it.
    The mark of a live place counts the k from 0 to the number of ranks for which the place is in the smallest cut that is only as
    wide as all owed and F_k together; other places have the mark 0. That smallest cut is what the source still reaches when the
    greatest flow is on its way. MARKS prints a line for each quote that is not turned away: the number of its record, and
    yard@period:mark for each mark above 0.

Calls and their refusals
    HZ horizon origin           opens the board: 1 horizon not 1 to 47, 2 yard above 31
    YN yard name                names a yard: 2
    LN from to transit capacity adds a lane: 2, 3 transit not 1 to 47, 4 capacity above 9,999, 6 into the origin or its own
                                yard, 13 the 97th lane
    DP yard                     names a depot: 2, 13 the 17th depot, 16 the origin or a depot
    SD lane period capacity     sets a departure: 4, 14 no such lane or departure, 18 not all owed could be delivered
    HD yard pallets             holds and pins up the slip: 2, 5 pallets not 1 to 9,999, 13 the 513th accepted hold, 15 no
                                depot, 18
    BK slip, RL slip            books, releases: 17 the slip is not pinned up
    QT ranking                  quotes: 11 no ranking
    RS                          lays the run sheet; a line `pallets: lane@period lane@period ...` for each run may follow
    Where several refuse, the smallest number is told. 19 comes before all of them: anything but HZ before an accepted HZ, and
    HZ after. The reading ends at 7 no such mark, 8 cut short, 9 a name not of 1 to 24 printable bytes, in this order; 10 is a
    file too long.
"""
import argparse
import collections
import itertools
import multiprocessing
import os
import random
import re
import struct
import subprocess
import sys
import time

YARDS, LAST_PERIOD, MOST = 32, 47, 9999
LANES, DEPOTS, HOLDS, LONGEST = 96, 16, 512, 32768
UNLIMITED = 10 ** 9  # more than all departures of a board can take together
LAYOUT = {"HZ": ">BB", "LN": ">BBBH", "DP": ">B", "SD": ">BBH", "HD": ">BH", "BK": ">H", "RL": ">H", "QT": ">B", "RS": ">"}


# --- greatest flows -----------------------------------------------------------------------------------------------------------

class Network:
    """Nodes and arcs. An arc has an even number e, and e + 1 is the same arc taken back; room says what each can still take."""

    def __init__(self, count):
        self.out = [[] for _ in range(count)]
        self.heads, self.room = [], []
        self.left = []  # the room that the flow of the last question left

    def arc(self, tail, head, capacity):
        number = len(self.heads)
        self.out[tail].append(number)
        self.out[head].append(number + 1)
        self.heads += (head, tail)
        self.room += (capacity, 0)
        return number

    def greatest(self, source, sink, changed=()):
        """The value of a greatest flow, with some capacities changed for this question. The network stays as it is."""
        capacity = self.room[:]
        for number, now in changed:
            capacity[number] = now
        room = capacity[:]
        value = 0
        while True:
            steps = self.steps_to(sink, source, room)
            if steps[source] < 0:
                break
            value += self.fill(source, sink, room, steps)
        self.certify(source, sink, capacity, room, steps, value)
        self.left = room
        return value

    def reached(self, source):
        """The nodes to which the flow of the last question leaves a way with room."""
        found, front, heads = {source}, [source], self.heads
        while front:
            node = front.pop()
            for e in self.out[node]:
                if self.left[e] and heads[e] not in found:
                    found.add(heads[e])
                    front.append(heads[e])
        return found

    def steps_to(self, sink, source, room):
        """The fewest arcs with room from each node to the sink, -1 where there is no way (or none as short as the source's)."""
        steps = [-1] * len(self.out)
        steps[sink] = 0
        front, heads, out, step = [sink], self.heads, self.out, 0
        while front and steps[source] < 0:
            step += 1
            found = []
            for node in front:
                for e in out[node]:
                    if room[e ^ 1]:
                        tail = heads[e]
                        if steps[tail] < 0:
                            steps[tail] = step
                            found.append(tail)
            front = found
        return steps

    def fill(self, source, sink, room, steps):
        """Sends what it can along shortest ways, until each such way has a full arc."""
        heads, out = self.heads, self.out
        tried = [0] * len(out)
        way, node, value = [], source, 0
        while True:
            if node == sink:
                least = min([room[e] for e in way])
                value += least
                for e in way:
                    room[e] -= least
                    room[e ^ 1] += least
                full = next(i for i, e in enumerate(way) if not room[e])
                node = heads[way[full] ^ 1]
                del way[full:]
            arcs, wanted = out[node], steps[node] - 1
            for i in range(tried[node], len(arcs)):
                e = arcs[i]
                if room[e] and steps[heads[e]] == wanted:
                    tried[node] = i
                    way.append(e)
                    node = heads[e]
                    break
            else:
                tried[node] = len(arcs)
                if node == source:
                    return value
                node = heads[way.pop() ^ 1]
                tried[node] += 1

    def certify(self, source, sink, capacity, room, steps, value):
        """Stops the judge unless this is a flow, and a cut is no wider: then no flow is greater."""
        heads = self.heads
        surplus = [0] * len(self.out)
        width = 0
        for e in range(0, len(heads), 2):
            load = room[e + 1] - capacity[e + 1]
            if not 0 <= load <= capacity[e] or room[e] != capacity[e] - load:
                raise AssertionError("the judge's own flow overloads an arc")
            head, tail = heads[e], heads[e + 1]
            if load:
                surplus[tail] -= load
                surplus[head] += load
            if steps[tail] < 0 <= steps[head]:
                width += capacity[e]
        surplus[source] += value
        surplus[sink] -= value
        if any(surplus) or width != value:
            raise AssertionError("the judge's own flow is not a greatest flow")


# --- the board ----------------------------------------------------------------------------------------------------------------

class Board:
    """A board after an accepted opening."""

    def __init__(self, horizon, origin):
        self.horizon, self.origin = horizon, origin
        self.lanes, self.capacity = [], []  # (from, to, transit), and the capacity of each departure by its period
        self.depots, self.holds = [], []  # yards in their order; [place of the depot in it, pallets, where the slip stands]
        self.network = None  # the network, until the board changes
        self.known = {}  # figures and marks by ranking, until the board changes

    def changed(self):
        self.network = None
        self.known = {}

    def owed(self):
        sums = [0] * len(self.depots)
        for depot, pallets, standing in self.holds:
            if standing != "released":
                sums[depot] += pallets
        return sums

    def whole_network(self, owed, capacity=None):
        """The network of all places with these owed, and the arc that brings further pallets for each depot and period (shut)."""
        periods = self.horizon + 1
        places = YARDS * periods
        first_owed, source, sink = places, places + len(self.depots), places + len(self.depots) + 1
        net = Network(sink + 1)
        for t in range(periods):
            net.arc(source, self.origin * periods + t, UNLIMITED)
        for (tail, head, transit), loads in zip(self.lanes, capacity or self.capacity):
            for t, most in enumerate(loads):
                net.arc(tail * periods + t, head * periods + t + transit, most)
        further = {}
        for j, yard in enumerate(self.depots):
            net.arc(first_owed + j, sink, owed[j])
            for t in range(periods):
                net.arc(yard * periods + t, first_owed + j, owed[j])
                further[j, t] = net.arc(yard * periods + t, sink, 0)
        return net, source, sink, further

    def further(self, wanted):
        """The most further pallets for the wanted depots and periods together, all owed being delivered."""
        if self.network is None:
            self.network = self.whole_network(self.owed())
        net, source, sink, arcs = self.network
        open_arcs = [(number, UNLIMITED) for (j, t), number in arcs.items() if wanted(j, t)]
        return net.greatest(source, sink, open_arcs) - sum(self.owed())

    def deliverable(self, owed, capacity=None):
        net, source, sink, _ = self.whole_network(owed, capacity)
        return net.greatest(source, sink) == sum(owed)

    def quoted(self, ranking):
        """The figures, and for each k the live places in the smallest cut. What is asked twice of a board is worked out once."""
        if ranking not in self.known:
            count = len(self.depots) if ranking == 0 else self.horizon + 1
            live, most, cuts = self.live_places(), [], []
            for k in range(count + 1):
                most.append(self.further(lambda j, t: (j, t)[ranking] < k))
                net, source, _, _ = self.network
                cuts.append(net.reached(source) & live)
            self.known[ranking] = [b - a for a, b in zip(most, most[1:])], cuts
        return self.known[ranking]

    def figures(self, ranking):
        return self.quoted(ranking)[0]

    def marks(self, ranking):
        """The marks above 0, by place."""
        return collections.Counter(place for cut in self.quoted(ranking)[1] for place in cut)

    def far(self, starts, forth):
        """The smallest sum of transit times to each yard from the nearest start along the lanes, or to it against them."""
        distance = dict.fromkeys(starts, 0)
        for _ in range(YARDS):
            for lane in self.lanes:
                near, away = (lane[0], lane[1]) if forth else (lane[1], lane[0])
                if near in distance:
                    distance[away] = min(distance.get(away, UNLIMITED), distance[near] + lane[2])
        return distance

    def live_places(self):
        come, go = self.far([self.origin], True), self.far(self.depots, False)
        periods = self.horizon + 1
        return {yard * periods + t for yard in come if yard in go for t in range(come[yard], periods - go[yard])}

    # Each call gives "ok", with what it says, or "no" with the number. The rules stand in the order of their numbers.

    def add_lane(self, tail, head, transit, capacity):
        if tail >= YARDS or head >= YARDS:
            return "no 2"
        if not 1 <= transit <= LAST_PERIOD:
            return "no 3"
        if capacity > MOST:
            return "no 4"
        if head == self.origin or head == tail:
            return "no 6"
        if len(self.lanes) == LANES:
            return "no 13"
        self.lanes.append((tail, head, transit))
        self.capacity.append([capacity] * max(0, self.horizon - transit + 1))
        self.changed()
        return f"ok {len(self.lanes) - 1}"

    def name_depot(self, yard):
        if yard >= YARDS:
            return "no 2"
        if len(self.depots) == DEPOTS:
            return "no 13"
        if yard == self.origin or yard in self.depots:
            return "no 16"
        self.depots.append(yard)
        self.changed()
        return f"ok {len(self.depots) - 1}"

    def with_departure(self, lane, period, capacity):
        changed = self.capacity[:]
        changed[lane] = changed[lane][:]
        changed[lane][period] = capacity
        return changed

    def set_departure(self, lane, period, capacity):
        if capacity > MOST:
            return "no 4"
        if lane >= len(self.lanes) or period >= len(self.capacity[lane]):
            return "no 14"
        after = self.with_departure(lane, period, capacity)
        if not self.deliverable(self.owed(), after):
            return "no 18"
        self.capacity = after
        self.changed()
        return "ok"

    def hold(self, yard, pallets):
        if yard >= YARDS:
            return "no 2"
        if not 1 <= pallets <= MOST:
            return "no 5"
        if len(self.holds) == HOLDS:
            return "no 13"
        if yard not in self.depots:
            return "no 15"
        depot, owed = self.depots.index(yard), self.owed()
        owed[depot] += pallets
        if not self.deliverable(owed):
            return "no 18"
        self.holds.append([depot, pallets, "pinned"])
        self.changed()
        return f"ok {len(self.holds) - 1}"

    def spend(self, slip, standing):
        if slip >= len(self.holds) or self.holds[slip][2] != "pinned":
            return "no 17"
        self.holds[slip][2] = standing
        self.changed()
        return "ok"

    def quote(self, ranking):
        if ranking not in (0, 1):
            return "no 11"
        return " ".join(["ok", *map(str, self.figures(ranking))])


class Day:
    """A board that may not be open yet, and the names of yards."""

    def __init__(self):
        self.board, self.names = None, {}

    def perform(self, mark, fields):
        """What a whole record is answered."""
        if (mark == "HZ") == (self.board is not None):
            return "no 19"
        if mark == "HZ":
            return self.open(*fields)
        if mark == "YN":
            return self.name(*fields)
        if mark == "DP":
            said = self.board.name_depot(*fields)
            name = self.names.get(fields[0])
            return f"{said} {name}" if said.startswith("ok") and name is not None else said
        board = self.board
        calls = {"LN": board.add_lane, "SD": board.set_departure, "HD": board.hold, "QT": board.quote, "RS": lambda: "ok",
                 "BK": lambda slip: board.spend(slip, "booked"), "RL": lambda slip: board.spend(slip, "released")}
        return calls[mark](*fields)

    def open(self, horizon, origin):
        if not 1 <= horizon <= LAST_PERIOD:
            return "no 1"
        if origin >= YARDS:
            return "no 2"
        self.board = Board(horizon, origin)
        return "ok"

    def name(self, yard, name):
        if yard >= YARDS:
            return "no 2"
        self.names[yard] = name
        return "ok"


# --- day files ----------------------------------------------------------------------------------------------------------------

def read_record(file, at):
    """The mark, the fields and the size of the record at an offset; or the number of its fault."""
    mark = file[at:at + 2].decode("latin-1")
    if len(mark) < 2:
        return 8
    if mark != "YN":
        if mark not in LAYOUT:
            return 7
        size = 2 + struct.calcsize(LAYOUT[mark])
        return (mark, struct.unpack(LAYOUT[mark], file[at + 2:at + size]), size) if at + size <= len(file) else 8
    if at + 4 > len(file) or at + 4 + file[at + 3] > len(file):
        return 8
    size = 4 + file[at + 3]
    name = file[at + 4:at + size]
    if not 1 <= len(name) <= 24 or any(not 32 <= byte <= 126 for byte in name):
        return 9
    return mark, (file[at + 2], name.decode("ascii")), size


# A line that is due, its kind, for RS the board as the runs find it, and for QT the line of its marks
Due = collections.namedtuple("Due", "line kind sheet marks", defaults=(None, None))


def sheet_of(board):
    return board.horizon, board.origin, tuple(board.lanes), board.capacity, tuple(board.depots), board.owed()


def due_lines(file):
    """Each line that the file is to be answered."""
    if len(file) > LONGEST:
        yield Due("0 ?? no 10 at 0", "?? no 10")
        return
    day, at = Day(), 0
    for nth in itertools.count(1):
        if at == len(file):
            return
        record = read_record(file, at)
        if isinstance(record, int):
            yield Due(f"{nth} ?? no {record} at {at}", f"?? no {record}")
            return
        mark, fields, size = record
        said = day.perform(mark, fields)
        kind = f"{mark} {said if said.startswith('no') else 'ok'}"
        sheet = sheet_of(day.board) if kind == "RS ok" else None
        marks = marks_line(nth, day.board, *fields) if kind == "QT ok" else None
        yield Due(f"{nth} {mark} {said}", kind, sheet, marks)
        at += size


def marks_line(nth, board, ranking):
    periods = board.horizon + 1
    marks = sorted(board.marks(ranking).items())
    return f"{nth}" + "".join(f" {place // periods}@{place % periods}:{mark}" for place, mark in marks)


# --- comparing ----------------------------------------------------------------------------------------------------------------

NUMBER = "(?:0|[1-9][0-9]*)"
RUN = re.compile(f"({NUMBER}):((?: {NUMBER}@{NUMBER})+)$")
RUN_BEGINS = re.compile("[0-9]*:")


def run_fault(sheet, lines):
    """What is wrong with the runs of a run sheet, or None."""
    horizon, origin, lanes, capacity, depots, owed = sheet
    loads, delivered = collections.Counter(), [0] * len(depots)
    for line in lines:
        match = RUN.match(line)
        if not match or match[1] == "0":
            return f"no run: {line!r}"
        place = None
        for leg in match[2].split():
            lane, period = map(int, leg.split("@"))
            if lane >= len(lanes) or period >= len(capacity[lane]):
                return f"no departure {leg}: {line!r}"
            tail, head, transit = lanes[lane]
            if (tail, period) != place and not (place is None and tail == origin):
                return f"leg {leg} does not begin where the run is: {line!r}"
            loads[lane, period] += int(match[1])
            place = head, period + transit
        if place[0] not in depots:
            return f"the run does not end at a depot: {line!r}"
        delivered[depots.index(place[0])] += int(match[1])
    for (lane, period), load in loads.items():
        if load > capacity[lane][period]:
            return f"departure {lane}@{period} has {load} of {capacity[lane][period]}"
    if delivered != owed:
        return f"the runs deliver {delivered}, and owed are {owed}"
    if len(lines) > len(loads):
        return f"{len(lines)} runs, and {len(loads)} departures with a load"
    return None


SLOWEST = 300  # seconds that the program may take for a file


def run_program(program, file):
    """What is wrong with how the program ended, or None; and what it printed."""
    try:
        done = subprocess.run([program], input=file, stdout=subprocess.PIPE, stderr=subprocess.PIPE, timeout=SLOWEST)
    except subprocess.TimeoutExpired:
        return f"no end after {SLOWEST} s", b""
    if done.returncode != 0 or done.stderr:
        return f"exit status {done.returncode}, error output {done.stderr[:200]!r}", done.stdout
    return None, done.stdout


def lines_of(program, file):
    """What is wrong with the program or its last line, or None; and its lines."""
    fault, text = run_program(program, file)
    if not fault and text and not text.endswith(b"\n"):
        fault = "the last line has no end"
    return fault, text.decode("latin-1").split("\n")[:-1]


def compare_marks(program, file, dues, counts):
    """The first disagreement on the marks of a file's quotes, or None."""
    fault, lines = lines_of(program, file)
    if fault:
        return f"marks: {fault}"
    wanted = [due.marks for due in dues if due.marks]
    for due, line in itertools.zip_longest(wanted, lines):
        if due != line:
            return f"marks: wanted {due!r}, printed {line!r}"
    counts["marks"] += len(lines)
    return None


def compare(programs, file, counts):
    """The first disagreement on a file, or None. The lines of each kind that agree are counted."""
    begin = time.time()
    fault, lines = lines_of(programs[0], file)
    counts["slowest"] = max(counts["slowest"], time.time() - begin)
    if fault:
        return fault
    at, dues = 0, list(due_lines(file))
    for due in dues:
        if at == len(lines) or lines[at] != due.line:
            return f"wanted {due.line!r}, printed {lines[at]!r}" if at < len(lines) else f"wanted {due.line!r}, printed no more"
        counts[due.kind] += 1
        at += 1
        if due.sheet:
            first = at
            while at < len(lines) and RUN_BEGINS.match(lines[at]):
                at += 1
            fault = run_fault(due.sheet, lines[first:at])
            if fault:
                return f"after {due.line!r}: {fault}"
            counts["run"] += at - first
            counts["sheet"] += any(due.sheet[5])
    if at < len(lines):
        return f"{lines[at]!r} is printed after all that was wanted"
    return compare_marks(programs[1], file, dues, counts) if programs[1] else None


# --- a small file that shows a disagreement -----------------------------------------------------------------------------------

def pieces_of(file):
    """The file in its records, as far as they are whole, and what is left in single bytes."""
    pieces, at = [], 0
    while at < len(file):
        record = read_record(file, at)
        size = 1 if isinstance(record, int) else record[2]
        pieces.append(file[at:at + size])
        at += size
    return pieces


def without_some(pieces):
    """Takes out ever smaller groups of pieces: yields a list to be tried, and is sent whether it will do."""
    width = max(1, len(pieces) // 2)
    while True:
        at = 0
        while at < len(pieces):
            fewer = pieces[:at] + pieces[at + width:]
            if (yield fewer):
                pieces = fewer
            else:
                at += width
        if width == 1:
            return
        width //= 2


def with_less(file):
    """Lowers one byte after another, in the same way."""
    for at in range(len(file)):
        for less in sorted({0, 1, 2, file[at] // 2, file[at] - 1}):
            if 0 <= less < file[at]:
                lower = file[:at] + bytes([less]) + file[at + 1:]
                if (yield lower):
                    file = lower
                    break


def shrink(file, disagrees, seconds=60):
    """A file that still disagrees and that none of these steps makes smaller (or as far as the time allows)."""
    stop = time.time() + seconds
    before = None
    while file != before:
        before = file
        for steps, join in ((without_some(pieces_of(file)), b"".join), (None, bytes)):
            steps = steps or with_less(file)
            simpler = next(steps, None)
            while simpler is not None:
                if time.time() > stop:
                    return file
                will_do = disagrees(join(simpler))
                file = join(simpler) if will_do else file
                try:
                    simpler = steps.send(will_do)
                except StopIteration:
                    break
    return file


# --- making day files ---------------------------------------------------------------------------------------------------------

class Maker:
    """Writes records, and keeps a day of its own beside them, to know which numbers are telling."""

    def __init__(self, rng):
        self.rng, self.file, self.day = rng, bytearray(), Day()

    def put(self, mark, *fields):
        if mark == "YN":
            name = fields[1].encode("latin-1")
            self.file += b"YN" + bytes([fields[0], len(name)]) + name
        else:
            self.file += mark.encode() + struct.pack(LAYOUT[mark], *fields)
        return "" if mark in ("QT", "RS") else self.day.perform(mark, fields)

    @property
    def board(self):
        return self.day.board

    def name(self):
        length = self.rng.choice([1, 2, 5, 9, 23, 24])
        return "".join(chr(self.rng.choice([32, 33, 45, 65, 90, 97, 126, 57, 58])) for _ in range(length))

    def telling_hold(self):
        """A hold of all that a depot can still get, of one more, or of any number."""
        yard = self.rng.choice(self.board.depots)
        j = self.board.depots.index(yard)
        roll = self.rng.random()
        if roll < 0.45:
            most = self.board.further(lambda depot, t: depot == j)
            pallets = self.rng.choice([most, most + 1, max(1, most // 2), max(1, most - 1), min(max(1, most), MOST)])
        else:
            pallets = self.rng.choice([1, 2, 3, self.rng.randint(1, 20), self.rng.randint(1, MOST)])
        self.put("HD", yard, min(pallets, 65535))

    def least_capacity(self, lane, period):
        """The least capacity of a departure with which all owed can be delivered."""
        owed = self.board.owed()
        net, source, sink, _ = self.board.whole_network(owed, self.board.with_departure(lane, period, 0))
        return sum(owed) - net.greatest(source, sink)

    def telling_departure(self):
        """A departure, one that all owed needs if there is one, is set to the least allowed, to one less, or to any number."""
        board, rng = self.board, self.rng
        lanes = [i for i, loads in enumerate(board.capacity) if loads]
        if not lanes:
            return
        picks = [(lane, rng.randrange(len(board.capacity[lane]))) for lane in rng.choices(lanes, k=4)]
        if any(board.owed()) and rng.random() < 0.7:
            leasts = [(self.least_capacity(*pick), *pick) for pick in picks]
            least, lane, period = max(leasts)
            to = rng.choice([least, max(0, least - 1), max(0, least - 1), least + 1, 0])
        else:
            lane, period = picks[0]
            now = board.capacity[lane][period]
            to = rng.choice([0, now + 1, now, max(0, now - 1), rng.randint(0, max(now, 4)), MOST])
        self.put("SD", lane, period, min(to, 65535))

    def slip_call(self):
        holds = self.board.holds
        pinned = [i for i, hold in enumerate(holds) if hold[2] == "pinned"]
        slips = pinned if pinned and self.rng.random() < 0.6 else [*range(len(holds))[-3:], 0, len(holds)]
        self.put(self.rng.choice(["BK", "RL", "RL"]), self.rng.choice(slips))

    def quotes(self):
        for ranking in self.rng.choice([(0,), (1,), (0, 1), (1, 0)]):
            self.put("QT", ranking)


def scatter(rng, yards, horizon, count, caps):
    return [(rng.choice(yards), rng.choice(yards), rng.randint(1, max(1, rng.choice([1, 2, horizon // 2]))), rng.choice(caps))
            for _ in range(count)]


def line(rng, yards, horizon, count, caps):
    """A road through all yards in turn, with ways that skip some and ways back."""
    lanes = [(a, b, 1, rng.choice(caps)) for a, b in zip(yards, yards[1:])]
    while len(lanes) < count:
        i, j = rng.randrange(len(yards)), rng.randrange(len(yards))
        lanes.append((yards[i], yards[j], rng.randint(1, max(1, min(horizon, abs(i - j) + 1))), rng.choice(caps)))
    return lanes


def fan(rng, yards, horizon, count, caps):
    """The origin to some yards, and each of these to others."""
    middle = yards[1:1 + max(1, len(yards) // 3)]
    lanes = [(yards[0], y, rng.randint(1, max(1, horizon // 4)), rng.choice(caps)) for y in middle]
    while len(lanes) < count:
        lanes.append((rng.choice(middle), rng.choice(yards[1:]), rng.randint(1, max(1, horizon // 3)), rng.choice(caps)))
    return lanes


def parallel(rng, yards, horizon, count, caps):
    """Many lanes between few yards, of many transit times."""
    few = yards[:rng.randint(2, 4)]
    return [(*rng.choice(list(itertools.combinations(few, 2))), rng.randint(1, min(LAST_PERIOD, horizon + 1)), rng.choice(caps))
            for _ in range(count)]


def bridges(rng, yards, horizon, count, caps):
    """Pairs of yards around pairs of yards: a later way must take back what an earlier one sent through the middle."""
    levels = max(0, min((len(yards) - 2) // 2, 6))
    starts, ends = yards[levels::-1], yards[levels + 1:2 * levels + 2]
    lanes = [(starts[0], ends[0], 1, 1)]
    for i in range(1, levels + 1):
        wide, slow = 2 ** (i - 1), min(LAST_PERIOD, rng.choice([i + 1, 2 * i, 2 ** i + i]))
        lanes += [(starts[i], starts[i - 1], 1, wide), (ends[i - 1], ends[i], 1, wide)]
        lanes += [(starts[i], ends[i - 1], slow, wide), (starts[i - 1], ends[i], slow, wide)]
    return lanes


def passing(rng, yards, horizon, count, caps):
    """Each yard is served by way of the one before it, or by a slow way of its own."""
    lanes = []
    for a, b in zip(yards, yards[1:]):
        lanes.append((a, b, 1, rng.choice(caps)))
        if rng.random() < 0.6:
            lanes.append((yards[0], b, rng.randint(1, max(1, horizon - 1)), rng.choice(caps)))
    while len(lanes) < count:
        lanes.append((rng.choice(yards), rng.choice(yards[1:]), rng.randint(1, 3), rng.choice(caps)))
    return lanes


SHAPES = [scatter, line, fan, parallel, bridges, passing]
CAPS = [[0, 1], [1], [1, 2, 3], [0, 1, 2, 3, 5, 8], [1, 9, 100], [0, 7, 500, MOST], [MOST], list(range(1, 40))]


def good_lanes(rng, yards, horizon, count):
    """Lanes of one shape, or of several until there are so many; few of them are lanes that are refused."""
    caps, lanes = rng.choice(CAPS), []
    mixed = count == LANES or rng.random() < 0.5
    while True:
        for lane in rng.choice(SHAPES)(rng, yards, horizon, count, caps):
            if (lane[0] != lane[1] and lane[1] != yards[0]) or rng.random() < 0.02:
                lanes.append(lane)
        if not mixed or len(lanes) >= count:
            return lanes[:count]


def lay_board(maker, horizon, yard_count, lane_count, depot_count):
    """Opens a board, adds lanes, and names depots and yards, in some order; sometimes sets departures at random."""
    rng = maker.rng
    yards = rng.sample(range(YARDS), yard_count)
    maker.put("HZ", horizon, yards[0])
    depots = (yards[1:][::-1] if rng.random() < 0.5 else rng.sample(yards[1:], yard_count - 1))[:depot_count]
    rng.shuffle(depots)
    records = [("LN", *lane) for lane in good_lanes(rng, yards, horizon, lane_count)] + [("DP", yard) for yard in depots]
    if rng.random() < 0.5:
        rng.shuffle(records)
    for yard in rng.sample(range(YARDS), rng.randint(0, 3)) + rng.sample(depots, min(len(depots), rng.randint(0, 2))):
        records.insert(rng.randint(0, len(records)), ("YN", yard, maker.name()))
    for record in records:
        maker.put(*record)
    if rng.random() < 0.3:
        for _ in range(rng.randint(1, 3 * lane_count)):
            lane = rng.randrange(lane_count)
            capacity = rng.choice([0, 0, 1, 2, 5, rng.randint(0, 50), MOST])
            maker.put("SD", lane, rng.randint(0, max(0, horizon - 1)), capacity)
    return yards


def history(maker, steps, yards):
    """Holds, releases, bookings and departures between quotes; now and then a new lane, depot or name."""
    rng = maker.rng
    lanes = [i for i in (maker.board.lanes or [])]
    for _ in range(steps):
        roll = rng.random()
        if roll < 0.30 and maker.board.depots:
            maker.telling_hold()
        elif roll < 0.50:
            maker.telling_departure()
        elif roll < 0.64:
            maker.slip_call()
        elif roll < 0.88:
            maker.quotes()
        elif roll < 0.91 and len(lanes) < LANES:
            maker.put("LN", rng.choice(yards), rng.choice(yards), rng.randint(1, 4), rng.choice([0, 1, 5, MOST]))
        elif roll < 0.94:
            maker.put("DP", rng.choice(yards))
        elif roll < 0.97:
            maker.put("RS")
        else:
            maker.put("YN", rng.randrange(34), maker.name())


def small(rng):
    maker = Maker(rng)
    count = rng.randint(2, 7)
    yards = lay_board(maker, rng.randint(1, 8), count, rng.randint(1, 12), rng.randint(0, count - 1))
    history(maker, rng.randint(2, 25), yards)
    return bytes(maker.file)


def busy(rng):
    maker = Maker(rng)
    count = rng.randint(6, 18)
    yards = lay_board(maker, rng.randint(6, 24), count, rng.randint(10, 60), rng.randint(1, min(10, count - 1)))
    history(maker, rng.randint(5, 25), yards)
    return bytes(maker.file)


def long_history(rng):
    maker = Maker(rng)
    count = rng.randint(3, 8)
    yards = lay_board(maker, rng.randint(2, 9), count, rng.randint(4, 20), rng.randint(1, min(5, count - 1)))
    history(maker, rng.randint(60, 160), yards)
    return bytes(maker.file)


def tight(rng):
    """Each depot is owed all that it can get; then departures are lowered and holds released."""
    maker = Maker(rng)
    count = rng.randint(3, 9)
    lay_board(maker, rng.randint(2, 12), count, rng.randint(4, 24), rng.randint(1, min(6, count - 1)))
    order = [j for j in range(len(maker.board.depots)) for _ in range(2)]
    rng.shuffle(order)
    for place in order:
        most = maker.board.further(lambda j, t: j == place)
        maker.put("HD", maker.board.depots[place], min(most + 1, 65535))
        maker.put("HD", maker.board.depots[place], min(MOST, rng.choice([most, most, (most + 1) // 2])))
        if rng.random() < 0.3:
            maker.quotes()
    maker.quotes()
    for _ in range(rng.randint(3, 12)):
        rng.choice([maker.telling_departure, maker.slip_call])()
    maker.put("RS")
    maker.quotes()
    return bytes(maker.file)


def heavy(rng):
    """Full departures and holds, so that sums are large."""
    maker = Maker(rng)
    horizon, lanes, holds = rng.choice([(3, 9, 30), (8, 20, 60), (12, 30, 90)])
    maker.put("HZ", horizon, 31)
    for _ in range(lanes):
        maker.put("LN", rng.choice([31, 31, 31, 0]), rng.choice([0, 0, 1]), rng.randint(1, 2), MOST)
    maker.put("DP", 0)
    maker.put("DP", 1)
    for _ in range(holds):
        maker.put("HD", rng.choice([0, 0, 0, 1]), rng.choice([MOST, MOST, MOST, MOST - 1, MOST + 1]))
        if rng.random() < 0.1:
            maker.quotes()
            maker.slip_call()
            maker.telling_departure()
    maker.put("RS")
    maker.quotes()
    return bytes(maker.file)


def road(rng):
    """Ways of many lanes, and a circle in which pallets go round until a late departure."""
    maker = Maker(rng)
    count = rng.randint(10, YARDS)
    yards = rng.sample(range(YARDS), count)
    horizon = rng.randint(min(LAST_PERIOD, count - 1), LAST_PERIOD)
    maker.put("HZ", horizon, yards[0])
    for lane in line(rng, yards, horizon, count + rng.choice([0, 0, 2, 8]), rng.choice(CAPS[1:])):
        maker.put("LN", *lane)
    if rng.random() < 0.6:
        at = rng.randrange(1, count - 1)
        maker.put("LN", yards[at + 1], yards[at], rng.randint(1, 3), rng.choice([1, 2, MOST]))
        late = rng.randrange(len(maker.board.lanes))
        departures = len(maker.board.capacity[late])
        for period in range(max(0, departures - rng.randint(1, 3))):
            maker.put("SD", late, period, 0)
    for yard in [yards[-1], *rng.sample(yards[1:-1], rng.randint(0, 3))]:
        maker.put("DP", yard)
    maker.telling_hold()
    maker.telling_departure()
    maker.put("QT", 0)
    maker.put("QT", 1)
    maker.put("RS")
    return bytes(maker.file)


def full(rng):
    """All yards, all periods, all lanes and all depots."""
    maker = Maker(rng)
    yards = lay_board(maker, rng.choice([47, 47, 47, 46, 40]), YARDS, LANES, DEPOTS)
    maker.put("LN", yards[0], yards[1], 1, 5)
    for _ in range(rng.randint(3, 12)):
        rng.choice([maker.telling_hold, maker.telling_hold, maker.telling_departure, maker.slip_call])()
    maker.put("QT", 0)
    maker.put("QT", 1)
    maker.put("RS")
    return bytes(maker.file)


EDGE_BYTES = [0, 1, 2, 3, 15, 16, 30, 31, 32, 46, 47, 48, 95, 96, 97, 127, 128, 255]
EDGE_WORDS = [0, 1, 2, 3, 255, 256, 511, 512, 513, 9998, 9999, 10000, 32768, 65535]


def edges(rng):
    """Records whose fields stand at the boundaries."""
    maker = Maker(rng)
    for _ in range(rng.choice([0, 0, 1, 3])):
        maker.put(rng.choice(["QT", "DP"]), rng.choice(EDGE_BYTES))
        maker.put("HZ", rng.choice([0, 48, 255, 47, 1]), rng.choice([32, 255, 31, 0]))
    if rng.random() < 0.9:
        maker.put("HZ", rng.choice([1, 2, 3, 46, 47]), rng.choice([0, 1, 31]))
    for _ in range(rng.randint(5, 60)):
        mark = rng.choice(["LN"] * 6 + ["DP"] * 4 + ["HD", "SD"] * 3 + ["BK", "RL", "QT", "QT", "YN", "RS", "HZ"])
        if mark == "YN":
            maker.put(mark, rng.choice([0, 1, 31, 32, 255]), maker.name())
            continue
        edge = rng.random() < 0.6
        fields = [rng.choice(EDGE_WORDS if code == "H" else EDGE_BYTES) if edge and rng.random() < 0.5
                  else rng.randint(0, 3) for code in LAYOUT[mark][1:]]
        maker.put(mark, *fields)
        if maker.board and maker.board.horizon > 9 and mark == "QT" and rng.random() < 0.5:
            break
    return bytes(maker.file)


def many_lanes(rng):
    """As many lanes as there may be, and more."""
    maker = Maker(rng)
    maker.put("HZ", rng.randint(1, 3), 0)
    for _ in range(95):
        maker.put("LN", *rng.choice([(0, 1), (0, 2), (0, 3), (1, 2), (2, 3), (3, 1), (0, 31)]), 1, rng.randint(0, 9))
    maker.put("LN", rng.choice([0, 0, 0, 32]), 30, 1, rng.randint(1, 9))
    for _ in range(12):
        yards = rng.choice([0, 1, 2, 32]), rng.choice([0, 1, 2, 3, 3, 3])
        maker.put("LN", *yards, rng.choice([1, 1, 1, 2, 0]), rng.choice([0, 9, MOST, MOST + 1]))
    maker.put("DP", 3)
    maker.put("DP", 30)
    for lane in (0, 94, 95, 96, 255):
        maker.put("SD", lane, rng.randint(0, 2), rng.choice([0, 8, MOST, MOST + 1]))
    maker.telling_hold()
    maker.quotes()
    return bytes(maker.file)


def many_depots(rng):
    """As many depots as there may be, and more, and holds at them."""
    maker = Maker(rng)
    maker.put("HZ", rng.randint(1, 3), 0)
    order = rng.sample(range(1, YARDS), 20)
    for number, yard in enumerate(order):
        maker.put("DP", yard)
        maker.put("LN", rng.choice([0, 0, 0, *order[:number]]), yard, rng.randint(1, 2), rng.randint(0, 5))
        if rng.random() < 0.3 or number >= DEPOTS:
            maker.put("DP", rng.choice([0, yard, order[0], YARDS]))
    for yard in maker.board.depots[-2:]:
        maker.put("HD", yard, 1)
    for _ in range(4):
        maker.telling_hold()
    maker.put("QT", 0)
    maker.put("QT", 1)
    return bytes(maker.file)


def many_holds(rng):
    """As many holds as there may be, and more; then each slip at the ends is spent."""
    maker = Maker(rng)
    maker.put("HZ", rng.randint(1, 3), 0)
    maker.put("LN", 0, 1, 1, MOST)
    maker.put("DP", 1)
    for number in range(rng.choice([511, 512, 514, 520])):
        maker.put("HD", 1, rng.choice([1, 2, 0, MOST + 1]) if rng.random() < 0.02 else 1)
        if rng.random() < 0.05:
            maker.put("RL", rng.randint(0, number))
    for slip in (0, 510, 511, 512, 65535):
        maker.put(rng.choice(["BK", "RL"]), slip)
    for yard, pallets in itertools.product((1, 2, YARDS), (0, 1, MOST + 1)):
        maker.put("HD", yard, pallets)
    maker.quotes()
    return bytes(maker.file)


def sized(rng):
    """A file of about the greatest length."""
    maker = Maker(rng)
    lay_board(maker, rng.randint(1, 2), 3, 3, 1)
    pad = rng.choice([b"RS", b"QT\x00", b"QT\x01", b"QT\x02", b"YN\x00\x01A", b"BK\x00\x00", b"HZ\x01\x00", b"DP\x20"])
    length = rng.choice([LONGEST - 1, LONGEST, LONGEST, LONGEST + 1, LONGEST + 1, LONGEST + 2, 70000])
    file = bytes(maker.file)
    file += pad * ((length - len(file) - 8) // len(pad))
    rest = length - len(file)  # 8 to 12 bytes: one name more fills the file
    file += b"YN\x00" + bytes([rest - 4]) + b"B" * (rest - 4)
    return file


def unopened(rng):
    """A day that opens late, twice or never, and names then."""
    maker = Maker(rng)
    for _ in range(rng.randint(1, 12)):
        mark = rng.choice(["HZ", "HZ", "LN", "DP", "SD", "HD", "BK", "RL", "QT", "RS", "YN", "YN"])
        if mark == "YN":
            maker.put(mark, rng.randint(0, 33), maker.name())
        else:
            maker.put(mark, *[rng.choice([0, 1, 2, 48, 33]) for _ in LAYOUT[mark][1:]])
    if rng.random() < 0.5:
        named = rng.randint(1, 31)
        for yard in (named, named, 0, YARDS)[:rng.randint(0, 4)]:
            maker.put("YN", yard, maker.name())
        maker.put("HZ", 2, 0)
        for yard in (named, named % 31 + 1, named):
            maker.put("DP", yard)
            maker.put("YN", named, maker.name())
        maker.put("QT", 0)
    return bytes(maker.file)


def names(rng):
    """Some good names, and then one at the boundaries, whole or cut short."""
    file = bytearray(b"HZ\x02\x00" if rng.random() < 0.8 else b"")
    for _ in range(rng.randint(0, 3)):
        length = rng.choice([1, 2, 23, 24])
        file += b"YN" + bytes([rng.choice([0, 3, 31, 32]), length]) + bytes(rng.choice([32, 65, 126]) for _ in range(length))
        file += rng.choice([b"", b"DP\x03", b"DP\x1f", b"RS"])
    length = rng.choice([0, 1, 24, 25, 255])
    body = [rng.choice([33, 65, 125]) for _ in range(length)]
    if body and rng.random() < 0.8:
        body[rng.choice([0, -1, rng.randrange(length)])] = rng.choice([31, 32, 126, 127, 128, 255, 0, 10])
    file += b"YN\x03" + bytes([length]) + bytes(body) + rng.choice([b"", b"RS", b"DP\x03"])
    if rng.random() < 0.4:
        del file[len(file) - rng.randint(1, 3):]
    return bytes(file)


def torn(rng):
    """A file that is cut, or has bytes changed, put in or taken out."""
    file = bytearray(rng.choice([small, small, edges, unopened])(rng))
    for _ in range(rng.choice([1, 1, 1, 2, 4])):
        at = rng.randrange(len(file) + 1)
        how = rng.choice(["cut", "cut", "flip", "flip", "set", "in", "out", "name", "tail"])
        if how == "cut":
            del file[at:]
        elif how == "flip" and at < len(file):
            file[at] ^= 1 << rng.randrange(8)
        elif how == "set" and at < len(file):
            file[at] = rng.choice(EDGE_BYTES)
        elif how == "in":
            file.insert(at, rng.randrange(256))
        elif how == "out":
            del file[at:at + 1]
        elif how == "name":
            length = rng.choice([0, 1, 24, 25, 255])
            name = bytes(rng.choice([31, 32, 65, 65, 65, 126, 127, 255]) for _ in range(length))
            file += b"YN" + bytes([rng.randrange(34), length]) + name + b"RS"
        else:
            file += bytes(rng.choice(b"HZYNLNDPSDHDBKRLQTRS\x00\xff") for _ in range(rng.randint(1, 3)))
    return bytes(file)


def noise(rng):
    """Marks and bytes at random."""
    file = bytearray(b"HZ\x03\x00" if rng.random() < 0.7 else b"")
    for _ in range(rng.randint(0, 30)):
        mark = rng.choice(list(LAYOUT) + ["YN"])
        size = struct.calcsize(LAYOUT.get(mark, ">BB"))
        file += mark.encode() + bytes(rng.choice([0, 0, 1, 1, 2, 3, rng.randrange(256)]) for _ in range(size))
        if mark == "YN":
            file += bytes(rng.randrange(30, 128) for _ in range(file[-1] if rng.random() < 0.9 else 1))
    return bytes(file)


KINDS = [(small, 40), (torn, 18), (edges, 12), (busy, 8), (noise, 8), (unopened, 6), (long_history, 5), (tight, 8), (heavy, 2),
         (road, 4), (many_lanes, 2), (many_depots, 3), (many_holds, 2), (sized, 4), (names, 6)]


def make_case(seed, number, is_full):
    rng = random.Random(f"{seed} {'full' if is_full else 'case'} {number}")
    make = full if is_full else rng.choices([kind for kind, _ in KINDS], [weight for _, weight in KINDS])[0]
    return make.__name__, make(rng)


# --- the judge itself ---------------------------------------------------------------------------------------------------------

def every_plan(board):
    """All feasible plans of a tiny board, by their deliveries at each depot and period. Straight from the definition."""
    departures = [(lane, t, most) for lane, loads in enumerate(board.capacity) for t, most in enumerate(loads)]
    plans = set()
    for loads in itertools.product(*(range(most + 1) for _, _, most in departures)):
        balance = collections.Counter()
        for (lane, t, _), load in zip(departures, loads):
            tail, head, transit = board.lanes[lane]
            balance[tail, t] -= load
            balance[head, t + transit] += load
        if all(b == 0 or yard == board.origin or (yard in board.depots and b > 0) for (yard, t), b in balance.items()):
            plans.add(tuple(tuple(balance[yard, t] for t in range(board.horizon + 1)) for yard in board.depots))
    return plans


def splits(delivered, owed):
    """All ways to take what is owed from the deliveries at one depot: what is left in each period."""
    if not delivered:
        return [()] if owed == 0 else []
    parts = range(min(delivered[0], owed) + 1)
    return [(delivered[0] - part, *rest) for part in parts for rest in splits(delivered[1:], owed - part)]


def figures_by_search(board, ranking):
    """The figures from all plans and splits, and whether one plan with one split reaches all of them; None if no plan will do."""
    count = len(board.depots) if ranking == 0 else board.horizon + 1
    reached = set()
    for plan in every_plan(board):
        for left in itertools.product(*map(splits, plan, board.owed())):
            by_rank = [0] * count
            for j, row in enumerate(left):
                for t, pallets in enumerate(row):
                    by_rank[(j, t)[ranking]] += pallets
            reached.add(tuple(itertools.accumulate(by_rank)))
    if not reached:
        return None
    most = [max(sums[k] for sums in reached) for k in range(count)]
    return [b - a for a, b in zip([0] + most, most)], count == 0 or tuple(most) in reached


def width(board, cut):
    """How wide a cut is, by its definition."""
    periods, live = board.horizon + 1, board.live_places()
    total = 0
    for (tail, head, transit), loads in zip(board.lanes, board.capacity):
        for t, most in enumerate(loads):
            if tail * periods + t in cut and head * periods + t + transit in live - cut:
                total += most
    for yard, pallets in zip(board.depots, board.owed()):
        if any(yard * periods + t in cut for t in range(periods)):
            total += pallets
    return total


def marks_by_all_cuts(board, ranking):
    """The marks from all cuts of a tiny board, one k after another: a cut that is full, and lies inside all that are. None if
    there are too many cuts."""
    periods, live = board.horizon + 1, board.live_places()
    marks, figures = collections.Counter(), board.figures(ranking)
    for k in range(len(figures) + 1):
        must = {place for place in live if place // periods == board.origin}
        never = {yard * periods + t for j, yard in enumerate(board.depots) for t in range(periods) if (j, t)[ranking] < k}
        free = sorted(live - must - never)
        if len(free) > 9:
            return None
        cuts = [must.union(some) for n in range(len(free) + 1) for some in itertools.combinations(free, n)]
        full = [cut for cut in cuts if width(board, cut) == sum(board.owed()) + sum(figures[:k])]
        smallest = set.intersection(*full)
        assert smallest in full and min(width(board, cut) for cut in cuts) == width(board, smallest)
        marks.update(smallest)
    return marks


def arrivals_by_ways(board):
    """The figures by period where nothing is owed and no departure was set: by successive shortest ways through the yards, each
    of which is used again in each period as long as it arrives by the end."""
    arcs = []
    for (tail, head, transit), loads in zip(board.lanes, board.capacity):
        if loads:
            arcs += [[tail, head, transit, loads[0]], [head, tail, -transit, 0]]
    for yard in board.depots:
        arcs += [[yard, YARDS, 0, UNLIMITED], [YARDS, yard, 0, 0]]
    figures = [0] * (board.horizon + 1)
    while True:
        far, via = {board.origin: 0}, {}
        for _ in range(YARDS + 1):
            for number, (tail, head, cost, room) in enumerate(arcs):
                if room and tail in far and far[tail] + cost < far.get(head, UNLIMITED):
                    far[head], via[head] = far[tail] + cost, number
        if far.get(YARDS, UNLIMITED) > board.horizon:
            return figures
        way, node = [], YARDS
        while node != board.origin:
            way.append(via[node])
            node = arcs[via[node]][0]
        least = min(arcs[number][3] for number in way)
        for number in way:
            arcs[number][3] -= least
            arcs[number ^ 1][3] += least
        for t in range(far[YARDS], board.horizon + 1):
            figures[t] += least


def tiny_board(rng):
    """A board of few departures with small capacities."""
    board = Board(rng.randint(1, 4), 0)
    yards = rng.randint(2, 5)
    plans = 1
    for _ in range(rng.randint(1, 7)):
        lane = rng.randrange(yards), rng.randrange(1, yards), rng.randint(1, 2), rng.randint(0, 3)
        plans *= (lane[3] + 1) ** max(0, board.horizon - lane[2] + 1)
        if plans > 3000:
            break
        board.add_lane(*lane)
    for yard in rng.sample(range(1, yards), rng.randint(1, yards - 1)):
        board.name_depot(yard)
    for lane, loads in enumerate(board.capacity):
        for t in range(len(loads)):
            if rng.random() < 0.3:
                board.set_departure(lane, t, rng.randint(0, loads[t]))
    return board


def runs_of(board):
    """Runs that deliver what is owed: the flow to it, taken apart way by way, back from where it is delivered."""
    net, source, sink, _ = board.whole_network(board.owed())
    net.greatest(source, sink)
    periods = board.horizon + 1
    numbers = [None] * periods + [(lane, t) for lane, loads in enumerate(board.capacity) for t in range(len(loads))]
    loads = [net.left[e + 1] for e in range(0, len(net.left), 2)]
    runs = []
    for place in range(YARDS * periods, sink - 1):
        while True:
            way, node = [], place
            while node != source:
                arc = next((e // 2 for e in net.out[node] if e % 2 and loads[e // 2]), None)
                if arc is None:
                    break
                way.append(arc)
                node = net.heads[2 * arc + 1]
            if not way:
                break
            pallets = min(loads[arc] for arc in way)
            for arc in way:
                loads[arc] -= pallets
            runs.append((pallets, [numbers[arc] for arc in way[-2:0:-1]]))
    return runs


def spoiled(rng, runs):
    """Runs that are not right: one has other pallets, is left out, put in twice, or has another leg, one less or none."""
    runs = [(pallets, legs[:]) for pallets, legs in runs]
    i = rng.randrange(len(runs))
    pallets, legs = runs[i]
    how = rng.choice(["more", "less", "out", "twice", "leg", "short", "nothing"])
    if how in ("more", "less"):
        runs[i] = pallets + (1 if how == "more" else -1), legs
    elif how == "out":
        del runs[i]
    elif how == "twice":
        runs.append(runs[i])
    elif how == "leg":
        j = rng.randrange(len(legs))
        legs[j] = (legs[j][0], legs[j][1] + 1) if len(legs) > 1 else (legs[j][0] + LANES, legs[j][1])
    elif how == "short":
        del legs[rng.randrange(len(legs))]
    else:
        runs.append((0, legs))
    return runs


def run_lines(runs):
    return [f"{pallets}:" + "".join(f" {lane}@{t}" for lane, t in legs) for pallets, legs in runs]


def run_trial(seed, rounds):
    """Right runs must pass, and spoiled ones must not."""
    faults = tried = 0
    for number in range(rounds):
        maker = Maker(random.Random(f"{seed} runs {number}"))
        rng = maker.rng
        lay_board(maker, rng.randint(2, 12), 6, rng.randint(4, 30), rng.randint(1, 4))
        for _ in range(rng.randint(1, 6)):
            maker.telling_hold()
        runs = runs_of(maker.board)
        sheet = sheet_of(maker.board)
        said = run_fault(sheet, run_lines(runs))
        tried += 1
        if said:
            faults += 1
            print(f"runs {number}: right runs, and yet: {said}")
        if runs:
            tried += 1
            worse = spoiled(rng, runs)
            if run_fault(sheet, run_lines(worse)) is None:
                faults += 1
                print(f"runs {number}: spoiled runs pass: {worse}")
    print(f"the judge itself: {tried} run sheets, {faults} faults")
    return faults


def is_refused_rightly(board, yard, pallets):
    """Whether no plan of a tiny board delivers all owed with this hold."""
    trial = Board(board.horizon, board.origin)
    trial.lanes, trial.capacity, trial.depots = board.lanes, board.capacity, board.depots
    trial.holds = board.holds + [[board.depots.index(yard), pallets, "pinned"]]
    return figures_by_search(trial, 0) is None


def tiny_trial(seed, number, told):
    """One tiny board by all plans, splits and cuts, with exact holds."""
    rng = random.Random(f"{seed} self {number}")
    board = tiny_board(rng)
    for _ in range(rng.randint(0, 3)):
        yard, pallets = rng.choice(board.depots), rng.randint(1, 3)
        if board.hold(yard, pallets) == "no 18":
            told["refusals"] += 1
            told["faults"] += not is_refused_rightly(board, yard, pallets)
    for ranking in (0, 1):
        found = figures_by_search(board, ranking)
        told["figures"] += 1
        if found != (board.figures(ranking), True):
            told["faults"] += 1
            print(f"self {number}: ranking {ranking}: flows {board.figures(ranking)}, all plans {found}")
        found = marks_by_all_cuts(board, ranking)
        told["marks"] += found is not None
        if found not in (None, board.marks(ranking)):
            told["faults"] += 1
            print(f"self {number}: ranking {ranking}: marks {board.marks(ranking)}, by all cuts {found}")


def ways_trial(seed, number, told):
    """One larger board by shortest ways."""
    maker = Maker(random.Random(f"{seed} ways {number}"))
    rng = maker.rng
    yards = rng.sample(range(YARDS), rng.randint(4, 14))
    maker.put("HZ", rng.randint(1, LAST_PERIOD), yards[0])
    for lane in good_lanes(rng, yards, maker.board.horizon, rng.randint(4, 40)):
        maker.put("LN", *lane)
    for yard in yards[-rng.randint(1, 3):]:
        maker.put("DP", yard)
    told["figures"] += 1
    if maker.board.figures(1) != arrivals_by_ways(maker.board):
        told["faults"] += 1
        print(f"ways {number}: flows {maker.board.figures(1)}, ways {arrivals_by_ways(maker.board)}")


def self_trial(seed, rounds):
    """Tries the judge's own answers. Gives the number of faults."""
    told = collections.Counter()
    for number in range(rounds):
        tiny_trial(seed, number, told)
    for number in range(rounds // 5):
        ways_trial(seed, number, told)
    print(f"the judge itself: {told['figures']} lists of figures and {told['marks']} of marks compared, "
          f"{told['refusals']} refusals 18 looked into, {told['faults']} faults")
    return told["faults"] + run_trial(seed, rounds // 2)


# --- the command --------------------------------------------------------------------------------------------------------------

SHOWN = 12  # disagreements for which a small file is looked for


def judge_case(task):
    """Judges one case: its kind, the counts, its file, and the disagreement, if there is one."""
    programs, seed, number, is_full = task
    kind, file = make_case(seed, number, is_full)
    counts = collections.Counter()
    return kind, number, counts, file, compare(programs, file, counts)


def records_of(file):
    for piece in pieces_of(file):
        record = read_record(piece, 0)
        yield f"{record[0]} {' '.join(map(str, record[1]))}".strip() if isinstance(record, tuple) else piece.hex()


def tell(options, name, file, said, to_be_shrunk):
    """Prints a disagreement with a small file that shows one, and keeps both."""
    print(f"DISAGREEMENT {name}: {said}")
    files = [(f"{name}.day", file)]
    if to_be_shrunk:
        def judge(small_file):
            return compare((options.program, options.marks), small_file, collections.Counter())
        small_file = shrink(file, judge)
        hexadecimal = small_file.hex()
        print(f"  small file, {len(small_file)} bytes: {hexadecimal[:8000]}{'...' * (len(hexadecimal) > 8000)}")
        print(f"  which is {', '.join(records_of(small_file))}"[:2000])
        print(f"  there: {judge(small_file)}")
        files.append((f"{name}-small.day", small_file))
    sys.stdout.flush()
    for file_name, what in files if options.keep else []:
        os.makedirs(options.keep, exist_ok=True)
        with open(os.path.join(options.keep, file_name), "wb") as out:
            out.write(what)


def print_counts(counts):
    """How many lines of each kind agreed."""
    for mark in ["HZ", "YN", "LN", "DP", "SD", "HD", "BK", "RL", "QT", "RS", "??"]:
        told = [(kind.split(" ", 1)[1], many) for kind, many in counts.items() if kind.startswith(mark)]
        told.sort(key=lambda x: (x[0] != "ok", len(x[0]), x[0]))
        print(f"  {mark}: " + ", ".join(f"{kind} {many}" for kind, many in told))


def judge_all(options):
    """Judges all cases, and prints the counts. Gives the number of disagreements."""
    begin = time.time()
    tasks = [((options.program, options.marks), options.seed, n, is_full)
             for is_full, many in ((True, options.full), (False, options.cases)) for n in range(many)]
    counts, kinds, wrong, slowest = collections.Counter(), collections.Counter(), 0, 0
    with multiprocessing.Pool(options.jobs) as pool:
        for kind, number, seen, file, said in pool.imap_unordered(judge_case, tasks):
            slowest = max(slowest, seen.pop("slowest", 0))
            counts.update(seen)
            kinds[kind] += 1
            if said:
                wrong += 1
                tell(options, f"{kind}-{number}", file, said, wrong <= SHOWN)
    runs, owing, marked = counts.pop("run", 0), counts.pop("sheet", 0), counts.pop("marks", 0)
    print(f"seed {options.seed}: {sum(kinds.values())} files: " + ", ".join(f"{n} {kind}" for kind, n in sorted(kinds.items())))
    print_counts(counts)
    print(f"  runs {runs}, in {owing} run sheets for pallets owed; quotes whose marks were compared: {marked}")
    print(f"  the program's slowest file took {slowest:.2f} s")
    print(f"{sum(counts.values())} lines compared, {wrong} disagreements, {time.time() - begin:.0f} s")
    return wrong


def judge_files(options):
    wrong = 0
    for name in options.only:
        with open(name, "rb") as stream:
            file = stream.read()
        said = compare((options.program, options.marks), file, collections.Counter())
        wrong += said is not None
        print(f"{name}: {said or 'agrees'}")
    return wrong


def main():
    parser = argparse.ArgumentParser(description="Judges what the program `day` prints, from the definitions alone.")
    parser.add_argument("program", nargs="?")
    parser.add_argument("--seed", type=int, default=1)
    parser.add_argument("--cases", type=int, default=2000)
    parser.add_argument("--full", type=int, default=4)
    parser.add_argument("--jobs", type=int, default=1)
    parser.add_argument("--marks")
    parser.add_argument("--keep")
    parser.add_argument("--only", nargs="+")
    parser.add_argument("--expect")
    parser.add_argument("--expect-marks")
    parser.add_argument("--self", action="store_true")
    options = parser.parse_args()
    if options.self:
        return 1 if self_trial(options.seed, options.cases) else 0
    if options.expect or options.expect_marks:
        with open(options.expect or options.expect_marks, "rb") as stream:
            for due in due_lines(stream.read()):
                line = due.line if options.expect else due.marks
                if line is not None:
                    print(line)
        return 0
    if not options.program:
        parser.error("which program?")
    return 1 if (judge_files if options.only else judge_all)(options) else 0


if __name__ == "__main__":
    sys.exit(main())
