"""A model of the machine, cycle by cycle, written from its rules and not from the program. It is slow and plain."""

from instructions import (
    BadTarget, Fields, Illegal, WORD, access, immediate, is_taken, loaded, registers, stored, swapped, target,
)

COUNTS = ("retired", "accesses", "misses", "retries", "waits", "snoops", "writebacks")

DEFAULTS = {
    "cores": 1, "base": 0, "memory": 1048576, "sets": 16, "ways": 4, "buses": 1, "snoop": 2, "memory-delay": 10,
    "transfer": 3, "occupancy": 2, "interval": 1000, "limit": 1000000,
}

# Where the times of a bus stop.
TOP = 2**62


class Line:
    """A line of a cache, in state S, E or M."""

    def __init__(self, number, state, words):
        self.number, self.state, self.words = number, state, words


class Core:
    def __init__(self, number, config, entry):
        self.number, self.config, self.pc = number, config, entry
        self.x = [0] * 32
        self.x[10] = number
        self.x[2] = (config["base"] + config["memory"] - 4096 * number) & WORD
        self.reservation = None
        self.sets = [[] for _ in range(config["sets"])]
        # For each set the cycle from which on the core touched it no more.
        self.touches = [0] * config["sets"]
        self.busy, self.waiting, self.end = 0, False, None
        self.inbox = []
        self.counts = dict.fromkeys(COUNTS, 0)

    def line_of(self, address):
        return (address - self.config["base"]) // 16

    def set_of(self, number):
        return self.sets[number % len(self.sets)]

    def touch(self, number, clock):
        self.touches[number % len(self.touches)] = clock + 1

    def touched(self, number):
        return self.touches[number % len(self.touches)]

    def find(self, number):
        return next((line for line in self.set_of(number) if line.number == number), None)

    def lose_reservation(self, number):
        if self.reservation is not None and self.line_of(self.reservation) == number:
            self.reservation = None

    def put(self, post):
        """A post goes behind those that are no later, by (due, id)."""
        place = sum((other["due"], other["id"]) <= (post["due"], post["id"]) for other in self.inbox)
        self.inbox.insert(place, post)

    def fill(self, post, send):
        lines, held = self.set_of(post["line"]), self.find(post["line"])
        victim = None
        if held:
            lines.remove(held)
        elif len(lines) == self.config["ways"]:
            victim = lines.pop()
        lines.insert(0, Line(post["line"], "E" if post["exclusive"] else "S", list(post["words"])))
        self.waiting = False
        if victim:
            self.lose_reservation(victim.number)
            if victim.state == "M":
                self.counts["writebacks"] += 1
                send("writeback", victim.number, victim.words)

    def snoop(self, post, send):
        self.counts["snoops"] += 1
        held = self.find(post["line"])
        if post["kind"] != "invalidate":
            send("flush", post["line"], list(held.words) if held else None)
        if post["kind"] == "share":
            if held:
                held.state = "S"
            return
        if held:
            self.set_of(post["line"]).remove(held)
        self.lose_reservation(post["line"])

    def apply(self, post, clock, send):
        if post["kind"] not in ("retry", "invalidate"):
            self.touch(post["line"], clock)
        if post["kind"] == "reply":
            self.fill(post, send)
        elif post["kind"] == "retry":
            self.waiting = False
            self.counts["retries"] += 1
        else:
            self.snoop(post, send)

    def tick(self, clock, code):
        """One tick: the asks that the core sends, in their order."""
        asks = []

        def send(kind, line, value):
            asks.append({"id": (clock, self.number, len(asks)), "kind": kind, "line": line, "value": value})

        due = [post for post in self.inbox if post["due"] <= clock]
        self.inbox = [post for post in self.inbox if post["due"] > clock]
        for post in due:
            self.apply(post, clock, send)
        if self.end:
            pass
        elif self.busy:
            self.busy -= 1
        elif self.waiting:
            self.counts["waits"] += 1
        else:
            self.step(clock, code, send)
        return asks

    def trap(self, clock, name, value):
        self.end = ("trap", name, value, clock)

    def complete(self, cost=1, pc=None):
        self.counts["retired"] += 1
        self.busy = cost - 1
        self.pc = (self.pc + 4 if pc is None else pc) & WORD

    def write(self, register, value):
        if register:
            self.x[register] = value & WORD

    def is_outside(self, address):
        return not 0 <= address - self.config["base"] < self.config["memory"]

    def step(self, clock, code, send):
        if self.is_outside(self.pc):
            return self.trap(clock, "fetch", self.pc)
        place = self.pc - self.config["base"]
        fields = Fields(int.from_bytes(code[place:place + 4], "little"))
        try:
            self.execute(fields, clock, send)
        except Illegal:
            self.trap(clock, "illegal", fields.word)
        except BadTarget as bad:
            self.trap(clock, "target", bad.args[0])

    def execute(self, f, clock, send):
        a, b = self.x[f.rs1], self.x[f.rs2]
        if f.opcode == 0x37:
            self.write(f.rd, f.u_imm)
            self.complete()
        elif f.opcode == 0x17:
            self.write(f.rd, self.pc + f.u_imm)
            self.complete()
        elif f.opcode == 0x6F or f.opcode == 0x67 and f.funct3 == 0:
            goal = target((self.pc + f.j_imm) & WORD if f.opcode == 0x6F else (a + f.i_imm) & WORD & ~1)
            self.write(f.rd, self.pc + 4)
            self.complete(pc=goal)
        elif f.opcode == 0x63:
            self.complete(pc=target((self.pc + f.b_imm) & WORD) if is_taken(f, a, b) else None)
        elif f.opcode == 0x13:
            self.write(f.rd, immediate(f, a))
            self.complete()
        elif f.opcode == 0x33:
            result, cost = registers(f, a, b)
            self.write(f.rd, result)
            self.complete(cost)
        elif f.opcode == 0x0F and f.funct3 == 0:
            self.complete()
        elif f.word == 0x73:
            self.call(clock, send)
        elif f.word == 0x100073:
            self.trap(clock, "break", self.pc)
        else:
            self.reach(f, clock, send, *access(f, a))

    def call(self, clock, send):
        service, argument = self.x[17], self.x[10]
        if service == 1:
            send("put", None, argument & 255)
            self.complete(4)
        elif service == 93:
            self.complete(4)
            self.end = ("exit", None, argument, clock)
        else:
            self.trap(clock, "call", service)

    def reach(self, f, clock, send, kind, address, size):
        """A memory access: alignment first, then memory, then the cache."""
        if address % size:
            return self.trap(clock, "misaligned", address)
        if self.is_outside(address):
            return self.trap(clock, "outside", address)
        self.touch(self.line_of(address), clock)
        if kind == "sc" and self.reservation != address:
            self.reservation = None
            self.write(f.rd, 1)
            return self.complete()
        held = self.find(self.line_of(address))
        reads = kind in ("load", "lr")
        if not held or not reads and held.state == "S":
            send("read" if reads else "readown", self.line_of(address), None)
            self.waiting = True
            self.counts["misses"] += 1
            return
        lines = self.set_of(held.number)
        lines.remove(held)
        lines.insert(0, held)
        self.counts["accesses"] += 1
        self.hit(f, kind, address, held)
        self.complete()

    def hit(self, f, kind, address, held):
        place = address // 4 % 4
        old, value = held.words[place], self.x[f.rs2]
        if kind in ("load", "lr"):
            self.write(f.rd, loaded(f, old, address) if kind == "load" else old)
            if kind == "lr":
                self.reservation = address
            return
        held.state = "M"
        if kind == "store":
            held.words[place] = stored(f, old, address, value)
        elif kind == "sc":
            held.words[place] = value
            self.reservation = None
            self.write(f.rd, 0)
        else:
            held.words[place] = swapped(f, old, value)
            self.write(f.rd, old)


class Bus:
    """Its counts, the cycle from which it is free, and its calendar: the slots (id, grant) of the asks that it granted since
    it was closed, in order of id."""

    def __init__(self, occupancy):
        self.occupancy, self.asks, self.retries, self.free, self.slots = occupancy, 0, 0, 0, []

    def end(self, grant):
        return min(grant + self.occupancy, TOP)

    def last_end(self):
        return max([self.free, *(self.end(grant) for _, grant in self.slots)])

    def fit(self, number):
        """The first cycle at which the bus is free for an ask, if only those with lesser ids are before it."""
        return max([number[0], self.free, *(self.end(grant) for other, grant in self.slots if other < number)])

    def clash(self, number):
        """The greatest id that is in an ask's way: its slot begins before the ask's would end."""
        end = self.end(self.fit(number))
        return max((other for other, grant in self.slots if other > number and grant < end), default=None)

    def grant(self, number):
        at = self.fit(number) if self.clash(number) is None else max(number[0], self.last_end())
        self.slots.insert(sum(other <= number for other, _ in self.slots), (number, at))
        self.asks += 1
        return at

    def close(self):
        self.free, self.slots = self.last_end(), []


class Console:
    """Its bytes, and the greatest id of a byte since it was closed."""

    def __init__(self):
        self.data, self.greatest = bytearray(), None

    def clash(self, number):
        return self.greatest if self.greatest is not None and self.greatest > number else None

    def append(self, number, byte):
        self.greatest = number if self.greatest is None else max(self.greatest, number)
        self.data.append(byte)

    def close(self):
        self.greatest = None


class Entry:
    """What the status map says of a line."""

    def __init__(self, words):
        self.kind, self.words, self.settled = "idle", words, 0
        self.cores, self.owner, self.requester, self.exclusive = set(), None, None, None


class Machine:
    def __init__(self, config, entry, segments):
        self.config, self.clock, self.console, self.entries = config, 0, Console(), {}
        self.memory = bytearray(config["memory"])
        for address, data in segments:
            place = address - config["base"]
            self.memory[place:place + len(data)] = data
        self.cores = [Core(number, config, entry) for number in range(config["cores"])]
        self.buses = [Bus(config["occupancy"]) for _ in range(config["buses"])]

    def entry(self, line):
        if line not in self.entries:
            data = self.memory[16 * line:16 * line + 16]
            self.entries[line] = Entry([int.from_bytes(data[i:i + 4], "little") for i in range(0, 16, 4)])
        return self.entries[line]

    def number_of_channel(self, ask):
        """The buses, and then the console."""
        return len(self.buses) if ask["kind"] == "put" else ask["line"] % len(self.buses)

    def channel(self, ask):
        return [*self.buses, self.console][self.number_of_channel(ask)]

    def close(self):
        for channel in [*self.buses, self.console]:
            channel.close()

    def serve(self, ask):
        """The posts that come of an ask."""
        if ask["kind"] == "put":
            self.console.append(ask["id"], ask["value"])
            return []
        bus = self.channel(ask)
        grant = bus.grant(ask["id"])
        posts = []

        def send(to, delay, kind, **more):
            post = {"to": to, "due": grant + self.config[delay], "id": ask["id"], "line": ask["line"], "kind": kind}
            posts.append({**post, **more})

        self.change(ask, grant, self.entry(ask["line"]), send)
        bus.retries += sum(post["kind"] == "retry" for post in posts)
        return posts

    def reply(self, entry, grant, send, to, delay, exclusive):
        send(to, delay, "reply", exclusive=exclusive, words=list(entry.words))
        entry.settled = max(entry.settled, grant + self.config[delay] + 1)

    def change(self, ask, grant, entry, send):
        core, kind = ask["id"][1], ask["kind"]
        if kind in ("read", "readown"):
            self.change_by_read(core, kind == "readown", grant, entry, send)
        elif entry.kind == "owned" and entry.owner == core and kind == "writeback":
            entry.kind, entry.words = "idle", list(ask["value"])
        elif entry.kind == "moving" and entry.owner == core:
            if ask["value"] is not None:
                entry.words = list(ask["value"])
            if kind == "flush":
                self.change_by_flush(core, ask["value"] is not None, grant, entry, send)

    def change_by_read(self, core, owns, grant, entry, send):
        if entry.kind == "moving" or grant < entry.settled and (owns or entry.kind == "owned"):
            send(core, "snoop", "retry")
        elif entry.kind == "owned" and entry.owner != core:
            send(entry.owner, "snoop", "own" if owns else "share")
            entry.kind, entry.requester, entry.exclusive = "moving", core, owns
        elif entry.kind == "shared" and not owns:
            entry.cores.add(core)
            self.reply(entry, grant, send, core, "memory-delay", False)
        else:
            for sharer in sorted(entry.cores - {core}) if entry.kind == "shared" else []:
                send(sharer, "snoop", "invalidate")
            entry.kind, entry.owner, entry.cores = "owned", core, set()
            self.reply(entry, grant, send, core, "memory-delay", True)

    def change_by_flush(self, core, has_words, grant, entry, send):
        requester = entry.requester
        if entry.exclusive:
            entry.kind, entry.owner = "owned", requester
        else:
            entry.kind, entry.cores = "shared", {core, requester} if has_words else {requester}
        self.reply(entry, grant, send, requester, "transfer", entry.exclusive)

    def cycle(self):
        asks = [ask for core in self.cores for ask in core.tick(self.clock, self.memory)]
        for post in [post for ask in sorted(asks, key=lambda ask: ask["id"]) for post in self.serve(ask)]:
            self.cores[post["to"]].put(post)
        self.close()
        self.clock += 1

    def run(self):
        """To the first checkpoint at which all cores have ended, or to the limit."""
        while True:
            checkpoint = min(self.clock + self.config["interval"], self.config["limit"])
            while self.clock < checkpoint:
                self.cycle()
            if self.clock == self.config["limit"] or all(core.end for core in self.cores):
                return

    def report(self):
        ended = all(core.end for core in self.cores)
        cycles = max(core.end[3] for core in self.cores) + 1 if ended else self.clock
        lines = [f"cores {len(self.cores)}", f"cycles {cycles}"]
        lines += [self.core_line(core) for core in self.cores]
        lines += [
            f"bus {number} asks {bus.asks} retries {bus.retries} free {bus.free}"
            for number, bus in enumerate(self.buses)
        ]
        lines.append(f"console {len(self.console.data)}\n")
        return "\n".join(lines).encode() + bytes(self.console.data) + b"\n"

    def core_line(self, core):
        if not core.end:
            end = f"running at {self.clock}"
        elif core.end[0] == "exit":
            end = f"exit {core.end[2]} at {core.end[3]}"
        else:
            end = f"trap {core.end[1]} {core.end[2]:08x} at {core.end[3]}"
        counts = " ".join(f"{name} {core.counts[name]}" for name in COUNTS)
        return f"core {core.number} {end} {counts}"

    def is_coherent(self, line):
        """A core that may write the line holds it alone, and what is held unchanged is what memory has."""
        held = [one for one in (core.find(line) for core in self.cores) if one]
        alone = not any(one.state in "EM" for one in held) or len(held) == 1
        return alone and all(one.state == "M" or one.words == self.entry(line).words for one in held)

    def coherence(self):
        broken = [line for line in range(self.config["memory"] // 16) if not self.is_coherent(line)]
        return "".join([f"coherence {len(broken)}\n", *(f"broken line {line}\n" for line in broken)]).encode()

    def dump(self):
        lines = []
        for line in range(self.config["memory"] // 16):
            held = [core.find(line) for core in self.cores]
            words = next((one.words for one in held if one and one.state == "M"), self.entry(line).words)
            if any(words):
                address = self.config["base"] + 16 * line
                lines.append(" ".join(f"{number:08x}" for number in [address, *words]))
        return "".join(line + "\n" for line in lines).encode()
