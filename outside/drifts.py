"""Drifts of a machine of the model: given interleavings and pieces of cycles, and what the monitors record of them."""


class World:
    """The cores, each at a clock of its own, and what waits between them and the channels."""

    def __init__(self, machine, cycles):
        self.machine, self.end = machine, machine.clock + cycles
        count = len(machine.cores)
        self.clocks = [machine.clock] * count
        self.asks = [[] for _ in range(count)]
        self.posts = [[] for _ in range(count)]
        self.served = []
        self.taken = [[] for _ in range(count)]

    def tick(self, core):
        if core < len(self.clocks) and self.clocks[core] < self.end:
            self.asks[core] += self.machine.cores[core].tick(self.clocks[core], self.machine.memory)
            self.clocks[core] += 1

    def serve(self, core):
        if core < len(self.clocks) and self.asks[core]:
            ask = self.asks[core].pop(0)
            self.served.append((ask, self.machine.channel(ask).clash(ask["id"])))
            for post in self.machine.serve(ask):
                self.posts[post["to"]].append(post)

    def take(self, core):
        if core < len(self.clocks) and self.posts[core]:
            post, to = self.posts[core].pop(0), self.machine.cores[core]
            self.taken[core].append((post, self.clocks[core], to.touched(post["line"])))
            to.put(post)

    def piece(self, cycles):
        """Every core ticks by itself; the asks are served in the order of their ids; their posts are taken at the end."""
        for core in range(len(self.clocks)):
            for _ in range(cycles):
                self.tick(core)
        while any(self.asks):
            self.serve(self.oldest())
        self.take_all()

    def oldest(self):
        """The core whose oldest ask has the least id."""
        return min((asks[0]["id"], core) for core, asks in enumerate(self.asks) if asks)[1]

    def take_all(self):
        for core in range(len(self.posts)):
            while self.posts[core]:
                self.take(core)

    def finish(self):
        """All asks, the least id first; then all posts, core by core; then a tick of the first of the slowest; again."""
        while True:
            while any(self.asks):
                self.serve(self.oldest())
            self.take_all()
            if min(self.clocks) == self.end:
                break
            self.tick(self.clocks.index(min(self.clocks)))
        self.leave()

    def leave(self):
        """The machine as it is at the end, its channels closed."""
        self.machine.close()
        self.machine.clock = self.end

    def violations(self):
        """The lines of what the monitors record, each with its kind."""
        found, lines = [], {}
        for ask, clash in self.served:
            low, line = ask["id"], ask["line"]
            if clash:
                found.append(overtaken("bus", "channel", self.machine.number_of_channel(ask), clash, low))
            if ask["kind"] == "put":
                continue
            if lines.get(line, low) > low:
                found.append(overtaken("map", "line", line, lines[line], low))
            lines[line] = max(lines.get(line, low), low)
        for core, taken in enumerate(self.taken):
            for post, clock, touched in taken:
                if self.is_late(post, clock, touched):
                    kind = "reply" if post["kind"] in ("reply", "retry") else "line"
                    found.append((kind, f"{kind} core {core} id {dotted(post['id'])} due {post['due']} clock {clock}"))
        return found

    def is_late(self, post, clock, touched):
        """A late Invalidate does no harm where its core didn't touch the set since it was due, and will tick once more."""
        if post["kind"] == "invalidate" and touched <= post["due"] and clock != self.end:
            return False
        return clock > post["due"]


def dotted(number):
    return ".".join(str(part) for part in number)


def overtaken(kind, name, key, high, low):
    return kind, f"{kind} {name} {key} high {dotted(high)} low {dotted(low)}"


def note(number, cycles, found):
    kinds = " ".join(f"{kind} {sum(one == kind for one, _ in found)}" for kind in ("bus", "map", "line", "reply"))
    return "".join(line + "\n" for line in [f"interval {number} bounded {cycles} {kinds}", *(text for _, text in found)])


def script(machine, steps):
    """A run of one interval by these steps, each a letter and a core; its notes."""
    cycles = min(machine.config["interval"], machine.config["limit"])
    world = World(machine, cycles)
    for kind, core in steps:
        {"t": world.tick, "s": world.serve, "p": world.take}[kind](core)
    world.finish()
    return note(0, cycles, world.violations()) + f"ticks drift {len(machine.cores) * cycles} replay 0\n"


def quantum(machine, cycles_of_piece):
    """A run of intervals in pieces of so many cycles; its notes."""
    interval, limit, notes, number = machine.config["interval"], machine.config["limit"], "", 0
    while True:
        cycles = min(interval, limit - machine.clock)
        world = World(machine, cycles)
        for start in range(0, cycles, cycles_of_piece):
            world.piece(min(cycles_of_piece, cycles - start))
        world.leave()
        notes += note(number, cycles, world.violations())
        number += 1
        if machine.clock == limit or all(core.end for core in machine.cores):
            return notes + f"ticks drift {len(machine.cores) * machine.clock} replay 0\n"
