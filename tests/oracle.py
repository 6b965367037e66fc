"""An independent reading of the language: sessions are answered by a plain interpreter that knows nothing of the
program.

It takes all sessions but those that end out of memory or after too many reads, and reads statements by statements.py.
A report is a run from clock zero; what an edit leaves of a recorded run goes by the items that each step read."""
import re, sys
from math import isqrt
from operator import eq, ge, gt, le, lt, ne

from statements import BLOCKS, COMMANDS, DEFINITIONS, OF_A_STORAGE, OF_BLOCKS, OF_FUNCTIONS, OF_STORAGES
from statements import OF_TABLES, OF_THE_MOMENT, OF_VARIABLES
from statements import Fault, is_name, statement_of_edit, statements_of

MODULUS = 2147483647
MOST_ALIVE = 100000


class End(Exception):
    """Why no step follows: COMMANDS, DRY, HORIZON, or the name of a stop."""


class Refused(Exception):
    """Why a model is refused."""


class Version:
    def __init__(self, statements, horizon, seeds, limit):
        self.statements, self.horizon, self.seeds, self.limit = statements, horizon, seeds, limit
        self.blocks = [s for s in statements if s.verb in BLOCKS]
        self.commands = [s for s in statements if s.verb in COMMANDS]
        self.capacities = {s.label: s.number(0) for s in statements if s.verb == "STORAGE"}
        self.numbers = {s.label: s.number(0) for s in statements if s.verb == "EQU"}
        self.variables = {s.label: s.tree(0) for s in statements if s.verb == "VARIABLE"}
        self.functions = {s.label: s for s in statements if s.verb == "FUNCTION"}
        self.tables = {s.label: s for s in statements if s.verb == "TABLE"}

    def block(self, id):
        return next((b for b in self.blocks if b.id == id), None)

    def after(self, id):
        for one, other in zip(self.blocks, self.blocks[1:]):
            if one.id == id:
                return other.id
        return None

    def label(self, name):
        return next((b.id for b in self.blocks if b.label == name), None)

    def position(self, id):
        return next((i + 1 for i, b in enumerate(self.blocks) if b.id == id), 0)

    def fault(self):
        if len(self.statements) > 2000 or len(self.seeds) > 32:
            return "M5"
        if any(not (1 <= r <= 10**9 and 1 <= seed < MODULUS) for r, seed in self.seeds.items()):
            return "M6"
        if not 1 <= self.horizon <= 10**12:
            return "M7"
        labels = [s.label for s in self.statements if s.label]
        if len(labels) > len(set(labels)):
            return "M1"
        attributes = [(of, name) for _, of, name in self.named("attribute")]
        wanted = [name for _, name in self.named("label")] + [name for of, name in attributes if of in OF_BLOCKS]
        if any(self.label(w) is None for w in wanted):
            return "M2"
        storages = [name for _, name in self.named("storage")] + [name for of, name in attributes if of in OF_STORAGES]
        if any(s not in self.capacities and s not in self.numbers for s in storages):
            return "M3"
        variables = [name for of, name in attributes if of in OF_VARIABLES]
        if any(v not in self.variables and v not in self.numbers for v in variables):
            return "M3"
        functions = [name for of, name in attributes if of in OF_FUNCTIONS]
        if any(f not in self.functions and f not in self.numbers for f in functions):
            return "M3"
        tables = [name for _, name in self.named("table")] + [name for of, name in attributes if of in OF_TABLES]
        if any(t not in self.tables and t not in self.numbers for t in tables):
            return "M3"
        if any(name not in self.numbers for _, name in self.named("name")):
            return "M3"
        return "M4" if any(s in self.numbers for s in storages + variables + functions + tables) else None

    def named(self, kind):
        """What the operands of all statements have of a kind."""
        return [leaf for s in self.statements for leaf in s.leaves(kind)]


class Level:
    """A content over time."""

    def __init__(self):
        self.content = self.sum = self.at = 0

    def change(self, content, clock):
        self.sum, self.at, self.content = self.total(clock), clock, content

    def total(self, clock):
        return self.sum + self.content * (clock - self.at)

    def begin(self, clock):
        """Counts anew from now on, as a RESET says."""
        self.sum, self.at, self.entries, self.zero = 0, clock, 0, 0
        self.least = self.most = self.content


class Facility(Level):
    owner, entries = None, 0


class Queue(Level):
    entries = zero = most = 0


class Storage(Level):
    entries = least = most = 0

    def enter(self, units, clock):
        self.entries += units
        self.change(self.content + units, clock)
        self.most = max(self.most, self.content)


class UserChain:
    entries = 0

    def __init__(self):
        self.members = []


class Transaction:
    current = mark = asked = 0
    destination = None

    def __init__(self, number, priority, generate):
        self.number, self.priority, self.destination = number, priority, generate
        self.came, self.parameters = {}, {}

    def copy(self, number, to):
        """A copy with a number of its own, which came to no queue and goes to a block, or on from its own."""
        other = Transaction(number, self.priority, to)
        other.current, other.mark, other.parameters = self.current, self.mark, dict(self.parameters)
        return other


class Run:
    """A run from clock zero, step by step, with the items that each step read."""

    def __init__(self, version, seed):
        self.version, self.seed = version, seed
        self.remaining = self.commands = self.complete = self.steps = self.starting = 0
        self.streams = {j: ("set", j) for j in range(1, 8)}
        self.reads, self.clocks, self.ends = [], [], []
        self.clear()

    def clear(self):
        """Nobody is there, nothing was touched, and both clocks stand at 0."""
        self.clock = self.began = 0
        self.primed, self.next, self.active = False, 1, None
        self.current, self.future, self.waiting, self.retrying = [], [], {}, []
        self.counts, self.facilities, self.queues, self.storages = {}, {}, {}, {}
        self.savevalues, self.switches, self.linked, self.tables = {}, {}, {}, {}

    def reset(self):
        """Counts and times begin anew; nobody moves, and what is owned or held stays so."""
        self.began = self.clock
        for count in self.counts.values():
            count["entries"] = 0
        for level in [*self.facilities.values(), *self.queues.values(), *self.storages.values()]:
            level.begin(self.clock)
        for chain in self.linked.values():
            chain.entries = 0
        self.tables = {name: [] for name in self.tables}

    def count(self, id):
        return self.counts.setdefault(id, {"entries": 0, "content": 0, "made": 0})

    def made(self, id):
        return self.counts.get(id, {"made": 0})["made"]

    # ---- values and draws; nothing of the run changes until all tests are passed
    def value(self, block, place, absent=0):
        tree = block.tree(place)
        return absent if tree is None else self.evaluate(block, tree)

    def evaluate(self, block, tree):
        """The value of an operand, of a block: what stands on the left first."""
        kind, *rest = tree
        if kind == "number":
            return rest[0]
        if kind == "attribute":
            return self.attribute(block, *rest)
        if kind == "name":
            self.items.append(("name", rest[0]))
            return self.version.numbers[rest[0]]
        return computed(kind, *[self.evaluate(block, part) for part in rest])

    def attribute(self, block, of, what):
        """The value of an attribute, of an operand of a block."""
        if of in OF_THE_MOMENT:
            return self.of_the_moment(block, of)
        if of == "RN":
            return (self.draw(what) - 1) * 1000 // 2147483646
        if of in OF_BLOCKS:
            self.items.append(("label", what))
            self.seen.add(("block", self.version.label(what)))
            count = self.counts.get(self.version.label(what), {"entries": 0, "content": 0})
            return count["entries" if of == "N" else "content"]
        if of in OF_VARIABLES:
            return self.variable(block, what)
        if of in OF_FUNCTIONS:
            return self.function(block, what) // 10**6
        if of in OF_STORAGES:
            return self.of_storage(of, what)
        if of in OF_TABLES:
            self.seen.add(("table", what))
            return len(self.tables.get(what, []))
        key = what if isinstance(what, int) else self.named(what)
        if of == "P":
            if block.verb == "GENERATE" or key not in self.active.parameters:
                raise End("X5")
            return self.active.parameters[key]
        self.seen.add((KINDS[of], key))
        if of in ("F", "FC"):
            facility = self.facilities.get(key, Facility())
            return facility.entries if of == "FC" else int(facility.owner is not None)
        if of in ("X", "LS"):
            return self.savevalues.get(key, 0) if of == "X" else int(self.switches.get(key, False))
        if of in ("CH", "CC"):
            chain = self.linked.get(key, UserChain())
            return len(chain.members) if of == "CH" else chain.entries
        queue = self.queues.get(key, Queue())
        return {"Q": queue.content, "QC": queue.entries, "QM": queue.most, "QZ": queue.zero}[of]

    def variable(self, block, name):
        """The value of a VARIABLE, of which 32 nest at most."""
        if self.depth == 32:
            raise End("X10")
        self.items.append(("variable", name))
        self.depth += 1
        value = self.evaluate(block, self.version.variables[name])
        self.depth -= 1
        return value

    def function(self, block, name):
        """The value of a FUNCTION, in millionths; VARIABLEs and FUNCTIONs nest 32 deep together."""
        if self.depth == 32:
            raise End("X10")
        self.items.append(("function", name))
        function = self.version.functions[name]
        self.depth += 1
        if function.operand(0)[:2] == "RN":
            argument = (self.draw(function.tree(0)[2]) - 1) * 10**6 // 2147483646
        else:
            argument = self.evaluate(block, function.tree(0)) * 10**6
        self.depth -= 1
        return looked_up(function, argument)

    def of_storage(self, of, name):
        self.seen.add(("storage", name))
        storage = self.storages.get(name, Storage())
        if of == "R":
            self.items.append(("storage", name))
            return self.version.capacities[name] - storage.content
        return {"S": storage.content, "SC": storage.entries, "SM": storage.most}[of]

    def of_the_moment(self, block, of):
        """An attribute of the run, or of the transaction that is there but for the operands of GENERATE."""
        if of in ("M1", "XN1", "PR") and block.verb == "GENERATE":
            raise End("X5")
        if of == "TG1":
            return self.starting or self.remaining
        if of in ("XN1", "PR"):
            return self.active.number if of == "XN1" else self.active.priority
        since = {"M1": self.active and self.active.mark, "C1": self.began, "AC1": 0}
        time = self.clock - since[of]
        if time > 10**9:
            raise End("X7")
        return time

    def draw(self, j=1):
        kind, x = self.drawn[j]
        if kind == "set":
            self.items.append(("seed",))
            x = 1 + (x + self.seed - 2) % 2147483646
        x = 16807 * x % MODULUS
        self.drawn[j] = ("at", x)
        return x

    def time(self, block):
        """A time of the first operand plus or minus the second, below 0 where the second is; or as often the first as a
        FUNCTION says."""
        mean, modifier = self.value(block, 0), block.operand(1) or ""
        if modifier[:2] == "FN":
            return within(mean * self.function(block, block.tree(1)[2]) // 10**6)
        spread = self.value(block, 1)
        if spread < 0:
            return spread
        if spread == 0:
            return mean
        return within(mean - spread + (self.draw() - 1) * (2 * spread + 1) // 2147483646)

    def arrival(self, block, priming=False):
        """The next transaction of a GENERATE, if there is one: the limit is evaluated first, the priority last."""
        if block.operand(3) is not None:
            most = self.value(block, 3)
            if most < 0:
                raise End("X11")
            if self.made(block.id) >= most:
                return None
        time = self.value(block, 2) if priming and block.operand(2) is not None else self.time(block)
        priority = self.value(block, 4)
        if time < 0:
            raise End("X1")
        return self.clock + time, priority, block.id

    def units(self, block):
        units = self.value(block, 1, 1)
        if units < 1:
            raise End("X11")
        return units

    def key(self, block):
        """The entity of the first operand."""
        tree = block.tree(0)
        if tree[0] == "entity":
            return self.named(tree[1])
        number = self.evaluate(block, tree)
        if number < 1:
            raise End("X7")
        return number

    def named(self, name):
        """The entity with a name, or with the number that the name stands for."""
        self.items.append(("name", name))
        number = self.version.numbers.get(name)
        if number is not None and number < 1:
            raise End("X7")
        return name if number is None else number

    def fits(self, name, units):
        self.items.append(("fits", name, units))
        return units <= self.version.capacities[name]

    # ---- steps
    def step(self):
        """Makes a step, or raises End and changes nothing."""
        self.items, self.drawn, self.depth, self.seen, self.written = [], dict(self.streams), 0, set(), set()
        change = self.decide()
        self.streams = self.drawn
        change()
        self.wake()
        self.reads.append(self.items)
        self.steps += 1
        if self.complete > len(self.ends):
            self.ends.append(self.steps)

    def wake(self):
        """All that wait for something that the step wrote line up on the current chain, in order of waiting."""
        woken = [(x, read) for x, read in self.retrying if read & self.written]
        self.retrying = [(x, read) for x, read in self.retrying if not read & self.written]
        for x, _ in woken:
            line_up(self.current, x)

    def retries(self, *entity):
        """How many wait for an entity, or for the counts of a block."""
        return sum(entity in read for _, read in self.retrying)

    def decide(self):
        if self.remaining == 0:
            return self.command()
        if self.active is not None:
            return self.attempt(self.active)
        if self.current:
            return self.pick
        return self.move_clock()

    def command(self):
        self.items.append(("command", self.commands + 1))
        if self.commands == len(self.version.commands):
            raise End("COMMANDS")
        command = self.version.commands[self.commands]
        if command.verb == "RMULT":
            for j, value in enumerate(command.operands):
                if value:
                    self.drawn[j + 1] = ("set", int(value))
            return self.count_command
        if command.verb in ("RESET", "CLEAR"):
            return lambda: (self.count_command(), self.reset() if command.verb == "RESET" else self.clear())
        self.starting = int(command.operands[0])
        try:
            arrivals = [] if self.primed else self.first_arrivals()
        finally:
            self.starting = 0

        def start():
            self.primed, self.remaining = True, int(command.operands[0])
            self.count_command()
            for arrival in arrivals:
                self.make(arrival)

        return start

    def count_command(self):
        self.commands += 1

    def first_arrivals(self):
        self.items.append(("generates",))
        arrivals = []
        for block in [b for b in self.version.blocks if b.verb == "GENERATE"]:
            self.items.append(("block", block.id))
            arrivals.append(self.arrival(block, priming=True))
        return [a for a in arrivals if a]

    def make(self, arrival):
        time, priority, generate = arrival
        self.future.append((time, Transaction(self.next, priority, generate)))
        self.next += 1
        self.count(generate)["made"] += 1

    def have_room(self, more):
        """Stops where too many would live with so many more."""
        chains = [self.current, self.future, self.retrying, *self.waiting.values()]
        chains += [chain.members for chain in self.linked.values()]
        if (self.active is not None) + sum(map(len, chains)) + more > MOST_ALIVE:
            raise End("X9")

    def pick(self):
        self.active = self.current.pop(0)

    def move_clock(self):
        if not self.future:
            raise End("DRY")
        time = min(time for time, _ in self.future)
        if time > self.version.horizon:
            raise End("HORIZON")

        def move():
            self.clock = time
            self.clocks.append((self.steps, time))
            for _, x in [e for e in self.future if e[0] == time]:
                line_up(self.current, x)
            self.future = [e for e in self.future if e[0] != time]

        return move

    def attempt(self, x):
        id = x.destination
        if id is None:
            self.items.append(("after", x.current))
            id = self.version.after(x.current)
        if id is None:
            raise End("X8")
        self.items.append(("block", id))
        block = self.version.block(id)
        if block is None or block.verb == "GENERATE" and x.current:
            raise End("X8")
        if block.verb == "ENTER":
            return self.enter_storage(x, block)
        return getattr(self, block.verb.lower())(x, block)

    def enter(self, x, block, stays=True):
        if x.current:
            self.count(x.current)["content"] -= 1
        count = self.count(block.id)
        count["entries"] += 1
        count["content"] += stays
        self.written |= {("block", x.current), ("block", block.id)}
        x.current, x.destination = block.id, None

    # ---- blocks
    def generate(self, x, block):
        arrival = self.arrival(block)
        if arrival:
            self.have_room(1)

        def go():
            self.enter(x, block)
            x.mark = self.clock
            if arrival:
                self.make(arrival)

        return go

    def advance(self, x, block):
        time = self.time(block)
        if time < 0:
            raise End("X1")

        def go():
            self.enter(x, block)
            if time:
                self.active = None
                self.future.append((self.clock + time, x))

        return go

    def terminate(self, x, block):
        count = self.value(block, 0)
        if count < 0:
            raise End("X11")

        def go():
            self.enter(x, block, stays=False)
            self.active = None
            self.remaining = max(0, self.remaining - count)
            self.complete += self.remaining == 0

        return go

    def mark(self, x, block):
        def go():
            self.enter(x, block)
            x.mark = self.clock

        return go

    def priority(self, x, block):
        priority = self.value(block, 0)

        def go():
            self.enter(x, block)
            x.priority = priority

        return go

    def assign(self, x, block):
        key, value, sign = self.key(block), self.value(block, 1), block.sign()
        old = x.parameters.get(key, 0) if sign else 0
        new = within(old - value if sign == "-" else old + value)

        def go():
            self.enter(x, block)
            x.parameters[key] = new

        return go

    def savevalue(self, x, block):
        key, value, sign = self.key(block), self.value(block, 1), block.sign()
        old = self.savevalues.get(key, 0) if sign else 0
        new = within(old - value if sign == "-" else old + value)

        def go():
            self.enter(x, block)
            self.written.add(("savevalue", key))
            self.savevalues[key] = new

        return go

    def logic(self, x, block):
        key = self.key(block)

        def go():
            self.enter(x, block)
            self.written.add(("switch", key))
            self.switches[key] = {"S": True, "R": False, "I": not self.switches.get(key, False)}[block.auxiliary]

        return go

    def loop(self, x, block):
        key = self.key(block)
        if key not in x.parameters:
            raise End("X5")
        left, label = within(x.parameters[key] - 1), block.operand(1)
        if left != 0:
            self.items.append(("label", label))

        def go():
            self.enter(x, block)
            x.parameters[key] = left
            x.destination = None if left == 0 else self.version.label(label)

        return go

    def buffer(self, x, block):
        def go():
            self.enter(x, block)
            self.active = None
            line_up(self.current, x)

        return go

    def queue(self, x, block):
        key, units = self.key(block), self.units(block)
        queue = self.queues.get(key, Queue())
        if max(queue.entries, queue.content) + units > 10**9:
            raise End("X12")

        def go():
            self.enter(x, block)
            self.written.add(("queue", key))
            self.queues[key] = queue
            queue.entries += units
            queue.change(queue.content + units, self.clock)
            queue.most = max(queue.most, queue.content)
            x.came[key] = self.clock

        return go

    def depart(self, x, block):
        key, units = self.key(block), self.units(block)
        queue = self.queues.get(key, Queue())
        at_once = x.came.get(key) == self.clock
        if at_once and queue.zero + units > 10**9:
            raise End("X12")
        if queue.content < units:
            raise End("X4")

        def go():
            self.enter(x, block)
            self.written.add(("queue", key))
            self.queues[key] = queue
            queue.change(queue.content - units, self.clock)
            queue.zero += units * at_once

        return go

    def seize(self, x, block):
        key = self.key(block)
        facility = self.facilities.get(key, Facility())

        def wait():
            self.active, x.destination = None, block.id
            line_up(self.waiting.setdefault(key, []), x)

        def go():
            self.enter(x, block)
            self.written.add(("facility", key))
            self.facilities[key] = facility
            self.take(facility, x)

        return go if facility.owner is None else wait

    def take(self, facility, x):
        facility.owner = x.number
        facility.entries += 1
        facility.change(1, self.clock)

    def release(self, x, block):
        key = self.key(block)
        facility = self.facilities.get(key, Facility())
        if facility.owner != x.number:
            raise End("X2")

        def go():
            self.enter(x, block)
            self.written.add(("facility", key))
            facility.owner = None
            facility.change(0, self.clock)
            if self.waiting.get(key):
                first = self.waiting[key].pop(0)
                self.enter(first, self.version.block(first.destination))
                self.take(facility, first)
                line_up(self.current, first)

        return go

    def enter_storage(self, x, block):
        name, units = block.operand(0), self.units(block)
        storage = self.storages.get(name, Storage())
        if not self.fits(name, units):
            raise End("X12")
        room = self.fits(name, units + storage.content)
        if room and storage.entries + units > 10**9:
            raise End("X12")

        def wait():
            self.active, x.destination, x.asked = None, block.id, units
            line_up(self.waiting.setdefault(("storage", name), []), x)

        def go():
            self.enter(x, block)
            self.written.add(("storage", name))
            self.storages[name] = storage
            storage.enter(units, self.clock)

        return go if room else wait

    def leave(self, x, block):
        name, units = block.operand(0), self.units(block)
        storage = self.storages.get(name, Storage())
        if storage.content < units:
            raise End("X3")
        content, let_in = storage.content - units, []
        for waiter in self.waiting.get(("storage", name), []):
            if self.fits(name, waiter.asked + content):
                content += waiter.asked
                let_in.append(waiter)
        if storage.entries + sum(waiter.asked for waiter in let_in) > 10**9:
            raise End("X12")

        def go():
            self.enter(x, block)
            self.written.add(("storage", name))
            self.storages[name] = storage
            storage.change(storage.content - units, self.clock)
            storage.least = min(storage.least, storage.content)
            for waiter in let_in:
                self.waiting["storage", name].remove(waiter)
                storage.enter(waiter.asked, self.clock)
                self.enter(waiter, self.version.block(waiter.destination))
                line_up(self.current, waiter)

        return go

    def split(self, x, block):
        copies, label = self.value(block, 0), block.operand(1)
        if copies < 0:
            raise End("X11")
        self.have_room(copies)
        to = self.resolved(label) if copies and label is not None else None

        def go():
            self.enter(x, block)
            for _ in range(copies):
                line_up(self.current, x.copy(self.next, to))
                self.next += 1
            self.count(block.id)["content"] += copies

        return go

    def link(self, x, block):
        key = self.key(block)

        def go():
            self.enter(x, block)
            self.written.add(("chain", key))
            self.active = None
            chain = self.linked.setdefault(key, UserChain())
            chain.entries += 1
            chain.members.insert(0 if block.operand(1) == "LIFO" else len(chain.members), x)

        return go

    def unlink(self, x, block):
        key, some = self.key(block), block.tree(2)
        chain = self.linked.get(key, UserChain())
        most = len(chain.members)
        if some is not None and some[0] != "word":
            units = self.evaluate(block, some)
            if units < 1:
                raise End("X11")
            most = min(most, units)
        to = self.resolved(block.operand(1)) if most else None

        def go():
            self.enter(x, block)
            self.written.add(("chain", key))
            for _ in range(most):
                other = chain.members.pop(0)
                other.destination = to
                line_up(self.current, other)

        return go

    def tabulate(self, x, block):
        name = block.operand(0)
        self.items.append(("table", name))
        value = self.evaluate(block, self.version.tables[name].tree(0))

        def go():
            self.enter(x, block)
            self.written.add(("table", name))
            self.tables.setdefault(name, []).append(value)

        return go

    def resolved(self, label):
        self.items.append(("label", label))
        return self.version.label(label)

    def transfer(self, x, block):
        label = block.operand(1)
        if block.operand(0) is not None:
            whole, decimals = block.operand(0).split(".")
            part = int(whole or 0) * 10**6 + int(decimals.ljust(6, "0"))
            if (self.draw() - 1) * 10**6 // 2147483646 < part:
                label = block.operand(2)
        return self.lead(x, block, label)

    def test(self, x, block):
        a, b = self.value(block, 0), self.value(block, 1)
        return self.pass_or_wait(x, block, HOLDS[block.auxiliary](a, b), block.operand(2))

    def gate(self, x, block):
        return self.pass_or_wait(x, block, self.is_open(block), block.operand(1))

    def pass_or_wait(self, x, block, passes, label):
        """On to the next block; or to the one with the label, or, without one, to those who wait for what was read."""
        if passes or label is not None:
            return self.lead(x, block, None if passes else label)

        def wait():
            self.active = None
            self.retrying.append((x, self.seen))

        return wait

    def is_open(self, block):
        """Whether the condition of a GATE holds; only SF and SNF read the capacity."""
        which = block.auxiliary
        if which in OF_A_STORAGE:
            name = block.operand(0)
            self.seen.add(("storage", name))
            content = self.storages.get(name, Storage()).content
            if which in ("SE", "SNE"):
                return (content == 0) == (which == "SE")
            self.items.append(("storage", name))
            return (content >= self.version.capacities[name]) == (which == "SF")
        key = self.key(block)
        self.seen.add(("switch" if which in ("LS", "LR") else "facility", key))
        if which in ("LS", "LR"):
            return self.switches.get(key, False) == (which == "LS")
        return (self.facilities.get(key, Facility()).owner is not None) == (which == "U")

    def lead(self, x, block, label):
        """Into a block and from there to the one with a label, or to the next one where there is no label."""
        if label is not None:
            self.items.append(("label", label))

        def go():
            self.enter(x, block)
            x.destination = None if label is None else self.version.label(label)

        return go


# Of which kind the entity is that an attribute reads.
KINDS = {"F": "facility", "FC": "facility", "X": "savevalue", "LS": "switch", "CH": "chain", "CC": "chain"}
KINDS |= dict.fromkeys(["Q", "QC", "QM", "QZ"], "queue")
# What each operator of a TEST asks of the two values.
HOLDS = {"E": eq, "NE": ne, "G": gt, "GE": ge, "L": lt, "LE": le}


def looked_up(function, argument):
    """The value of a FUNCTION at an argument, both in millionths: along the lines between its points, or in steps."""
    points = function.points
    above = next((i for i, (x, _) in enumerate(points) if x >= argument), None)
    if above is None:
        return points[-1][1]
    (x2, y2) = points[above]
    if above == 0 or function.operand(1)[0] == "D":
        return y2
    (x1, y1) = points[above - 1]
    return y1 + (y2 - y1) * (argument - x1) // (x2 - x1)


def computed(operator, a, b=None):
    """What an operator makes of its values: `\\` goes towards zero, and `@` leaves what it leaves."""
    if b is None:
        return -a
    if operator in "\\@":
        if b == 0:
            raise End("X6")
        whole = abs(a) // abs(b) * (1 if (a < 0) == (b < 0) else -1)
        return within(whole if operator == "\\" else a - whole * b)
    return within(a * b if operator == "#" else a + b if operator == "+" else a - b)


def within(value):
    if abs(value) > 10**9:
        raise End("X7")
    return value


def line_up(chain, x):
    """After its equals, before the first of lower priority; the last of the chain has the lowest."""
    place = len(chain)
    while place and chain[place - 1].priority < x.priority:
        place -= 1
    chain.insert(place, x)


# ---- the report


def thousandths(a, b):
    n = a * 1000 // b if b > 0 else 0
    return f"{n // 1000}.{n % 1000:03}"


def signed(n):
    """A number of thousandths, with a `-` only where a digit that is printed is not 0."""
    return "-" * (n < 0) + thousandths(abs(n), 1000)


def rows_of_table(table, values, retries):
    """The rows of a table: its name, mean and deviation, and a row for each class with what is above and at most two
    limits."""
    first, width, classes, n = *(table.number(place) for place in (1, 2, 3)), len(values)
    total = sum(values)
    mean = abs(total) * 1000 // n * (-1 if total < 0 else 1) if n else 0
    squares = n * sum(x * x for x in values) - total * total
    deviation = isqrt(10**6 * squares // (n * (n - 1))) if n > 1 else 0
    limits, below = [first + i * width for i in range(classes - 1)], 0
    rows = [(table.label, signed(mean), signed(deviation), "", retries)]
    for low, high in zip([None, *limits], [*limits, None]):
        inside = sum((low is None or x > low) and (high is None or x <= high) for x in values)
        below += inside
        span = f"{'_' if low is None else low} - {'_' if high is None else high}"
        rows.append(("", "", "", span, "", inside, thousandths(100 * below, n)))
    return rows


def section(columns, rows):
    """A heading and rows: a title with `<` in front is left-aligned."""
    if not rows:
        return ""
    heads = [(title.lstrip("<"), width, title.startswith("<")) for title, width in columns]

    def line(cells):
        return " ".join(str(c).ljust(w) if left else str(c).rjust(w) for c, (_, w, left) in zip(cells, heads)) + "\n"

    return "\n" + line([title for title, _, _ in heads]) + "".join(map(line, rows))


def report(run, replication, start, outcome):
    v, clock, relative = run.version, run.clock, run.clock - run.began
    text = f"REPLICATION {replication} SEED {run.seed} START {start} {outcome}\n"
    head = [("START TIME", 10), ("END TIME", 10), ("BLOCKS", 10), ("FACILITIES", 10), ("STORAGES", 10)]
    text += section(head, [(run.began, clock, len(v.blocks), len(run.facilities), len(run.storages))])
    names, values, free = [], [], 10000
    for name in [n for s in v.statements for n in s.names()]:
        if name not in names:
            names.append(name)
            position = v.position(v.label(name)) if v.label(name) else free
            values.append(v.numbers.get(name, position))
            free += v.label(name) is None and name not in v.numbers
    text += section([("<NAME", 10), ("VALUE", 10)], list(zip(names, values)))
    nothing = {"entries": 0, "content": 0}
    blocks = []
    for i, b in enumerate(v.blocks):
        count = run.counts.get(b.id, nothing)
        retries = run.retries("block", b.id)
        blocks.append((b.label or "", i + 1, b.verb, count["entries"], count["content"], retries))
    columns = "<LABEL 10,LOC 5,<BLOCK TYPE 10,ENTRY COUNT 11,CURRENT COUNT 13,RETRY 6"
    text += section(titles(columns), blocks) or "\n" + " ".join(
        t.lstrip("<").ljust(w) if t[0] == "<" else t.rjust(w) for t, w in titles(columns)) + "\n"
    columns = "<FACILITY 10,ENTRIES 8,UTIL. 8,AVE. TIME 11,AVAIL. 6,OWNER 7,PEND 4,INTER 5,RETRY 5,DELAY 5"
    text += section(titles(columns), [
        (
            key, f.entries, thousandths(f.total(clock), relative), thousandths(f.total(clock), f.entries), 1,
            f.owner or 0, 0, 0, run.retries("facility", key), len(run.waiting.get(key, [])),
        )
        for key, f in run.facilities.items()
    ])
    columns = "<QUEUE 10,MAX 8,CONT. 8,ENTRY 8,ENTRY(0) 8,AVE.CONT. 11,AVE.TIME 11,AVE.(-0) 11,RETRY 5"
    text += section(titles(columns), [
        (
            key, q.most, q.content, q.entries, q.zero, thousandths(q.total(clock), relative),
            thousandths(q.total(clock), q.entries), thousandths(q.total(clock), q.entries - q.zero),
            run.retries("queue", key),
        )
        for key, q in run.queues.items()
    ])

    columns = "<STORAGE 10,CAP. 8,REM. 8,MIN. 8,MAX. 8,ENTRIES 8,AVL. 4,AVE.C. 11,UTIL. 8,RETRY 5,DELAY 5"
    text += section(titles(columns), [
        (
            name, v.capacities[name], v.capacities[name] - s.content, s.least, s.most, s.entries, 1,
            thousandths(s.total(clock), relative), thousandths(s.total(clock), v.capacities[name] * relative),
            run.retries("storage", name), len(run.waiting.get(("storage", name), [])),
        )
        for name, s in run.storages.items()
    ])
    columns = "<TABLE 10,MEAN 14,STD.DEV. 14,RANGE 25,RETRY 5,FREQUENCY 9,CUM.% 7"
    tables = [rows_of_table(v.tables[name], values, run.retries("table", name)) for name, values in run.tables.items()]
    text += section(titles(columns), [row for rows in tables for row in rows])

    def line(time, x):
        to = x.destination if x.destination is not None else v.after(x.current)
        return x.number, x.priority, time, v.position(x.current), v.position(to) if to else 0

    chain = ([run.active] if run.active else []) + run.current
    columns = "CEC XN 8,PRI 11,M1 10,CURRENT 7,NEXT 7"
    text += section(titles(columns), [line(x.mark, x) for x in chain])
    columns = "FEC XN 8,PRI 11,BDT 10,CURRENT 7,NEXT 7"
    return text + section(titles(columns), [line(time, x) for time, x in sorted(run.future, key=lambda e: e[0])])


def titles(columns):
    return [(c.rsplit(" ", 1)[0], int(c.rsplit(" ", 1)[1])) for c in columns.split(",")]


# ---- a session


class Session:
    def __init__(self, model, seed=1, horizon=10**9, every=1000, limit=10**6):
        try:
            self.version = Version(statements_of(model), horizon, {1: seed}, limit)
        except Fault as fault:
            raise Refused(str(fault)) from None
        if self.version.fault():
            raise Refused(self.version.fault())
        self.every, self.accepted, self.recorded = every, 0, {1: 0}

    def replay(self, r, steps):
        run = Run(self.version, self.version.seeds[r])
        for _ in range(steps):
            run.step()
        return run

    def point(self, r, k):
        """The run at the point of START k with its outcome, or what is answered in its place, and the steps made for
        it."""
        if not 1 <= k <= sum(c.verb == "START" for c in self.version.commands):
            return "nostart", None, 0
        run = Run(self.version, self.version.seeds[r])
        while run.complete < k:
            if run.steps == self.version.limit:
                try:
                    run.step()
                except End as end:
                    return self.ended(run, k, end)
                return "toolong", None, self.version.limit
            try:
                run.step()
            except End as end:
                return self.ended(run, k, end)
        return "COMPLETE", run, run.steps

    @staticmethod
    def ended(run, k, end):
        why = str(end)
        if why == "COMMANDS" or run.complete + 1 != k:
            return "nostart", None, run.steps
        return (why if why in ("DRY", "HORIZON") else f"ERROR {why}"), run, run.steps

    def answer(self, r, k, looks):
        if r not in self.version.seeds:
            return "noreplication\n"
        outcome, run, steps = self.point(r, k)
        if looks and steps > self.recorded[r]:
            return f"unfinished {self.recorded[r]}\n"
        self.recorded[r] = max(self.recorded[r], steps)
        if run is None:
            return outcome + "\n"
        text = report(run, r, k, outcome)
        return f"report {self.accepted} {r} {k} {len(text)}\n{text}"

    def edit(self, touched, new):
        """Accepts an edit to a new version: each run goes back to its last kept state at or before what is touched."""
        fault = new.fault()
        if fault:
            return f"refused E3 {fault}\n"
        for r in [r for r in self.version.seeds if r in new.seeds]:
            old = self.replay(r, self.recorded[r])
            first = min([i for i, items in enumerate(old.reads) if any(touched(r, item) for item in items)]
                        + [i for i, time in old.clocks if touched(r, ("clock", time))] + [old.steps])
            kept = [m for m in [0, *range(0, old.steps, self.every), *old.ends, old.steps] if m <= first]
            self.recorded[r] = max(kept)
        self.recorded = {r: self.recorded.get(r, 0) for r in new.seeds}
        self.version = new
        self.accepted += 1
        return f"ok {self.accepted}\n"

    def with_statements(self, statements):
        v = self.version
        return Version(statements, v.horizon, v.seeds, v.limit)

    def touches(self, statements, place, *lines):
        """What a statement touches that comes in or goes out at a place."""
        items = set()
        for s in lines:
            if s.verb in BLOCKS:
                front = [b.id for b in statements[: place - 1] if b.verb in BLOCKS]
                items |= {("after", front[-1])} if front else set()
                items |= {("block", s.id), ("after", s.id), ("label", s.label)}
                items |= {("generates",)} if s.verb == "GENERATE" else set()
            elif s.verb == "EQU":
                items |= {("name", s.label)}
            elif s.verb == "STORAGE":
                items |= {("asks", s.label), ("storage", s.label)}
            elif s.verb in ("VARIABLE", "FUNCTION", "TABLE"):
                items |= {(ITEMS[s.verb], s.label)}
            else:
                first = sum(b.verb in COMMANDS for b in statements[: place - 1]) + 1
                items |= {("command", j) for j in range(first, 5000)}
        return items

    def splice(self, place, goes, text):
        statements = list(self.version.statements)
        if not 1 <= place <= len(statements) + (not goes):
            return "refused E1\n"
        old = statements[place - 1] if goes else None
        try:
            new = None if text is None else statement_of_edit(text)
        except Fault as fault:
            return f"refused E2 {fault}\n"
        if new:
            new.id = old.id if old else max([s.id for s in statements], default=0) + 1
        if old and new and old.verb in BLOCKS and new.verb in BLOCKS:
            items = {("label", old.label), ("label", new.label)} if old.label != new.label else set()
            if (old.verb, old.auxiliary, old.listed) != (new.verb, new.auxiliary, new.listed):
                items |= {("block", old.id)}
                items |= {("generates",)} if "GENERATE" in (old.verb, new.verb) else set()
        elif old and new and (old.verb, old.label) == (new.verb, new.label) and old.verb in DEFINITIONS:
            if old.verb == "STORAGE":
                items = {("between", old.label, *sorted((old.number(0), new.number(0))))}
                items |= {("storage", old.label)} if old.number(0) != new.number(0) else set()
            elif old.verb == "TABLE":
                items = {("table", old.label)} if old.operand(0) != new.operand(0) else set()
            else:
                items = {(ITEMS[old.verb], old.label)} if old.listed != new.listed else set()
        else:
            items = self.touches(statements, place, *[s for s in (old, new) if s])
        after = statements[: place - 1] + ([new] if new else []) + statements[place - 1 + goes :]
        return self.edit(lambda r, item: touched_by(items, item), self.with_statements(after))

    def line(self, number, text):
        """The answer to a line of the script."""
        word, *rest = re.split("[ \t]", text)
        if len(text) > 65536:
            return f"? {number} long\n"
        if not text.strip(" \t"):
            return ""
        if word not in LINES:
            return f"? {number} command\n"
        read = re.fullmatch(LINES[word], text[len(word) :])
        if read is None or word == "capacity" and not is_name(rest[0].upper()):
            return f"? {number} arguments\n"
        if self.accepted == 4096 and word not in ("report", "peek", "all", "work", "list"):
            return "refused E8\n"
        arguments = [int(part) if re.fullmatch("[0-9]{1,18}", part) else part for part in read.groups()]
        if word in ("insert", "change"):
            return self.splice(arguments[0], word == "change", read[2])
        return getattr(self, f"line_{word}")(*arguments)

    def line_report(self, r, k):
        return self.answer(r, k, False)

    def line_peek(self, r, k):
        return self.answer(r, k, True)

    def line_all(self, k):
        return f"all {len(self.version.seeds)}\n" + "".join(self.answer(r, k, False) for r in self.version.seeds)

    def line_work(self, r, steps):
        """So many steps more of a run, as far as the step limit and its end allow."""
        if r not in self.version.seeds:
            return "noreplication\n"
        run = self.replay(r, self.recorded[r])
        try:
            while run.steps < min(self.recorded[r] + steps, self.version.limit):
                run.step()
        except End:
            pass
        self.recorded[r] = run.steps
        return f"work {run.steps}\n"

    def line_list(self):
        lines = [f"{i} {s.text()}\n" for i, s in enumerate(self.version.statements, 1)]
        return f"list {len(lines)}\n" + "".join(lines)

    def line_delete(self, place):
        return self.splice(place, True, None)

    def line_capacity(self, name, amount):
        name, v = str(name).upper(), self.version
        if name not in v.capacities:
            return "refused E6\n"
        if not 1 <= amount <= 10**9:
            return "refused E2 L5 1\n"
        place = next(i for i, s in enumerate(v.statements) if s.verb == "STORAGE" and s.label == name)
        return self.splice(place + 1, True, f"{name} STORAGE {amount}")

    def line_horizon(self, t):
        v, least = self.version, min(self.version.horizon, t)
        return self.edit(
            lambda r, item: item[0] == "clock" and item[1] > least, Version(v.statements, t, v.seeds, v.limit)
        )

    def line_seed(self, r, seed):
        if r not in self.version.seeds:
            return "refused E4\n"
        other = self.version.seeds[r] != seed
        return self.with_seeds({**self.version.seeds, r: seed}, lambda q, item: other and q == r and item == ("seed",))

    def line_replicate(self, r, seed):
        if r in self.version.seeds:
            return "refused E5\n"
        return self.with_seeds({**self.version.seeds, r: seed}, lambda q, item: False)

    def line_drop(self, r):
        if r not in self.version.seeds:
            return "refused E4\n"
        return self.with_seeds({q: s for q, s in self.version.seeds.items() if q != r}, lambda q, item: False)

    def with_seeds(self, seeds, touched):
        v = self.version
        return self.edit(touched, Version(v.statements, v.horizon, seeds, v.limit))


# What follows the word of a line of the script.
NUMBER = "[ \t]([0-9]{1,18})"
LINES = {"report": NUMBER * 2, "peek": NUMBER * 2, "all": NUMBER, "list": "", "delete": NUMBER, "horizon": NUMBER}
LINES |= {"insert": NUMBER + "[ \t](.*)", "change": NUMBER + "[ \t](.*)", "capacity": "[ \t]([^ \t]+)" + NUMBER}
LINES |= {"seed": NUMBER * 2, "replicate": NUMBER * 2, "drop": NUMBER, "work": NUMBER * 2, "quit": ""}


# Which item a definition answers.
ITEMS = {"EQU": "name", "VARIABLE": "variable", "FUNCTION": "function", "TABLE": "table"}


def touched_by(items, item):
    """Whether an item is among those touched; of a storage all amounts, or those above one capacity and up to
    another."""
    if item[0] == "fits":
        _, name, units = item
        return ("asks", name) in items or any(
            i[0] == "between" and i[1] == name and i[2] < units <= i[3] for i in items
        )
    return item in items


def answers(text, words=()):
    """What the program must write for a whole standard input, of which each letter is a byte."""
    options = dict(zip([w.lstrip("-") for w in words[::2]], map(int, words[1::2])))
    model, _, script = re.match(r"(?s)(.*?)(?:^(end)\r?(?:\n|\Z)(.*))?\Z", text, re.MULTILINE).groups()
    session = Session(model, **options)
    out = ""
    for number, line in enumerate((script or "").replace("\r\n", "\n").split("\n"), 1):
        if line == "quit":
            return out + "bye\n"
        out += session.line(number, line)
    return out


def main():
    """Answers standard input as the program must; its words are pairs, as `--every 4`."""
    try:
        sys.stdout.buffer.write(answers(sys.stdin.buffer.read().decode("latin-1"), sys.argv[1:]).encode("latin-1"))
    except Refused as refused:
        sys.exit(f"model refused: {refused}")


if __name__ == "__main__":
    main()
