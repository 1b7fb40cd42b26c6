#!/usr/bin/env python3
"""A model of the voyages by chance (docs/VOYAGES_BY_CHANCE.md): the same seed gives the same voyages as the program.

    bench/voyages.py PROFILE BOOKINGS RUNS     what `voyage PROFILE BOOKINGS - RUNS` of search_parts prints

It is written from what the document says and keeps nothing but the stays: what a column, a cover or the quay is like is counted anew
each time it is asked. So it is slow, and it is for small ships that arrive empty.
"""
import sys
import tomllib

MASK = 2**64 - 1
LATER = 10**6
SPANS = {"40": ["both"], "20": ["fore", "aft"], "20/40": ["fore", "aft", "both"], "fore": ["fore"], "aft": ["aft"]}


class Chance:
    def __init__(self, seed):
        self.state = seed

    def draw(self):
        self.state = (self.state * 6364136223846793005 + 1442695040888963407) & MASK
        return self.state >> 32

    def below(self, n):
        return self.draw() * n >> 32

    def noise(self, most):
        drawn = self.draw() >> 16
        return ((drawn * drawn >> 16) * most) >> 16


class Stay:
    """A container of a kind in a stack, from one call to another: `last` is the last call at which it may be lifted."""

    def __init__(self, kind, put, stack, tier, span, ends, doomed):
        self.kind, self.put, self.stack, self.tier, self.span = kind, put, stack, tier, span
        self.ends, self.last, self.doomed, self.lifted = ends, max(ends), doomed, None

    def in_column(self, aft):
        return self.span in ("both", "aft" if aft else "fore")


class Ship:
    def __init__(self, profile, bookings):
        self.calls = len(bookings["rotation"])
        self.stacks = profile["stack"]
        step = profile.get("weight_step", 1)
        where = {(s["bay"], s["row"], s["tiers"][0] >= 80): k for k, s in enumerate(self.stacks)}
        self.over, self.under = {}, {}
        for number, cover in enumerate(profile.get("cover", [])):
            self.over.update({where[bay, row, False]: number for bay, row in cover["under"]})
            self.under.update({where[bay, row, True]: number for bay, row in cover["on"]})
        self.levels = {}
        for s in profile.get("separate", []):
            self.levels[s["a"], s["b"]] = self.levels[s["b"], s["a"]] = s["level"]
        self.kinds, self.loads, self.first = [], {}, {}
        for c in bookings["container"]:
            kind = (c["to"], c["type"][0] != "2", "temperature" in c, c.get("class"), -(-c["kg"] // step) * step)
            if kind not in self.kinds:
                self.kinds.append(kind)
            g = self.kinds.index(kind)
            self.loads[c["from"], g] = self.loads.get((c["from"], g), 0) + 1
            self.first[g] = min(self.first.get(g, c["from"]), c["from"])
        self.bind()

    def bind(self):
        """Stacks of one cover are bound together, and those of one bay where classes of the cargo are kept apart by level 3."""
        classes = {kind[3] for kind in self.kinds}
        by_bay = any(level == 3 and a in classes and b in classes for (a, b), level in self.levels.items())
        group = list(range(len(self.stacks)))
        for s in range(len(self.stacks)):
            for t in range(s):
                same = self.cover(s) is not None and self.cover(s) == self.cover(t)
                if same or by_bay and self.stacks[s]["bay"] == self.stacks[t]["bay"]:
                    old = group[s]
                    group = [group[t] if g == old else g for g in group]
        self.bound = [[t for t in range(len(group)) if group[t] == group[s]] for s in range(len(group))]

    def cover(self, stack):
        return self.over.get(stack, self.under.get(stack))

    def fits(self, kind, stack, tier, span):
        plugs = self.stacks[stack].get("plugs", [])
        right = span in SPANS[self.stacks[stack]["lengths"]] and (span == "both") == self.kinds[kind][1]
        return right and (not self.kinds[kind][2] or self.stacks[stack]["tiers"][tier] in plugs)

    def variables(self):
        """The variables by put, kind, lifting and place, numbered from 0."""
        places = [(s, t, span) for s, it in enumerate(self.stacks) for t in range(len(it["tiers"])) for span in SPANS[it["lengths"]]]
        names = [(put, kind, lifted, place) for put in range(1, self.calls) for kind in range(len(self.kinds)) if self.first[kind] <= put
                 for lifted in range(put + 1, self.kinds[kind][0] + 1) for place in places if self.fits(kind, *place)]
        return {name: number for number, name in enumerate(names)}


class Planner:
    def __init__(self, ship):
        self.ship, self.chance = ship, Chance(1)
        self.kept = None
        self.taste()

    def taste(self):
        c = self.chance
        self.dig = c.below(19660) if c.below(100) < 15 else 0
        self.up = 0 if c.below(2) == 0 else c.below(512) - 256
        self.gap = c.below(512) - 77

    def cost_of(self, stays):
        return sum(s.lifted < self.ship.kinds[s.kind][0] for s in stays)

    # Before a run

    def draw_few(self):
        """Two or three groups of stacks that are bound together."""
        wanted, groups = 2 + self.chance.below(2), []
        if self.chance.below(100) < 95 and self.cost_of(self.kept):
            left = self.chance.below(self.cost_of(self.kept))
            rehandled = sorted(s.stack for s in self.kept if s.lifted < self.ship.kinds[s.kind][0])
            groups.append(self.ship.bound[rehandled[left]])
        for _ in range(32):
            if len(groups) >= wanted:
                break
            group = self.ship.bound[self.chance.below(len(self.ship.stacks))]
            groups += [group] if group not in groups else []
        return sum(groups, [])

    def take_over(self, freed, start):
        """The kept voyage's stays that a run takes over, by the calls at which they begin, with the calls at which they may end."""
        taken = []
        for s in sorted((s for s in self.kept if s.stack in self.sailed), key=lambda s: self.sailed.index(s.stack)):
            if s.stack not in freed or s.put < start:
                is_open = s.stack in freed and s.lifted >= start
                taken.append((s, None if is_open else s.lifted))
        return sorted(taken, key=lambda it: it[0].put)

    def prepare(self):
        c, ship = self.chance, self.ship
        every = list(range(len(ship.stacks)))
        self.guide = []
        if self.kept is None or c.below(100) < 2:
            self.sailed, self.kinds, self.limit = every, list(range(len(ship.kinds))), LATER if self.kept is None else self.cost_of(self.kept) + 1
            self.comes = {at: [kind for (call, kind), n in ship.loads.items() if call == at for _ in range(n)] for at in range(1, ship.calls)}
            self.goes = {at: [] for at in range(1, ship.calls)}
            if c.below(100) < 60 and self.kept is not None:
                times = c.below(30000)
                freed = [s for s in every if c.below(65536) < times]
                self.guide = self.take_over(freed, c.below(ship.calls))
            return
        self.sailed = self.draw_few()
        own = [s for stack in self.sailed for s in self.kept if s.stack == stack]
        self.kinds, self.limit = list(dict.fromkeys(s.kind for s in own)), self.cost_of(own) + 1
        self.comes = {at: [s.kind for s in own if s.put == at] for at in range(1, ship.calls)}
        self.goes = {at: [s.kind for s in own if s.lifted == at < ship.kinds[s.kind][0]] for at in range(1, ship.calls)}
        if c.below(100) >= 80:
            start = c.below(ship.calls)
            self.guide = self.take_over(self.sailed, start) if start > 1 else []

    # What stands aboard

    def column(self, stack, aft):
        return sorted((s for s in self.aboard if s.stack == stack and s.in_column(aft)), key=lambda s: s.tier)

    def least(self, stack, aft):
        column = self.column(stack, aft)
        if column and column[-1].span == "both":
            column = [s for s in self.aboard if s.stack == stack]
        return min((s.last for s in column), default=self.ship.calls + 1)

    def under_cover(self, cover):
        return [s for s in self.aboard if self.ship.over.get(s.stack) == cover]

    def on_cover(self, cover):
        return [s for s in self.aboard if self.ship.under.get(s.stack) == cover]

    # Lifts

    def staying(self, stack, aft, call, dig):
        column = self.column(stack, aft)
        height = next((k for k, s in enumerate(column) if s.last <= call), len(column))
        while dig and height and call in column[height - 1].ends and self.chance.below(65536) < dig:
            height -= 1
        return height

    def lift_top(self, stack, aft, call):
        top = self.column(stack, aft)[-1]
        if call not in top.ends:
            return False
        self.aboard.remove(top)
        top.lifted = call
        self.ended.append(top)
        if self.ship.kinds[top.kind][0] != call:
            self.cost += 1
            self.quay[top.kind] = self.quay.get(top.kind, 0) + 1
        return True

    def lift_from(self, stack, call, dig):
        fore, aft = self.column(stack, False), self.column(stack, True)
        if self.ship.under.get(stack) in self.opened and stack in self.ship.under:
            stays = [0, 0]
        else:
            stays = [self.staying(stack, False, call, dig)]
            if self.ship.stacks[stack]["lengths"] == "40":
                stays *= 2
            else:
                stays.append(self.staying(stack, True, call, dig))
                shorts = [sum(s.span != "both" for s in column) for column in (fore, aft)]
                stays = [min(stays[0], max(stays[1], shorts[0])), min(stays[1], max(stays[0], shorts[1]))]
        if stays == [len(fore), len(aft)]:
            return True
        if stack in self.ship.over:
            self.opened.add(self.ship.over[stack])
        for is_aft, height in ((False, stays[0]), (True, stays[1])):
            while len(self.column(stack, is_aft)) > height:
                if not self.lift_top(stack, is_aft, call):
                    return False
        return True

    def lift(self, call, dig):
        self.opened = set()
        hold = [s for s in self.sailed if s not in self.ship.under]
        deck = [s for s in self.sailed if s in self.ship.under]
        lifted = all(self.lift_from(s, call, dig) for s in hold) and all(self.lift_from(s, call, dig) for s in deck)
        self.closed = {self.ship.under[s.stack] for s in self.aboard if s.stack in self.ship.under}
        return lifted

    # Puts

    def near(self, kind, stack, tier, span):
        for s in self.aboard:
            level = self.ship.levels.get((self.ship.kinds[kind][3], self.ship.kinds[s.kind][3]), 0)
            shares = span == s.span or "both" in (span, s.span)
            if level == 3 and self.ship.stacks[s.stack]["bay"] == self.ship.stacks[stack]["bay"]:
                return True
            if s.stack == stack and (level == 2 or level == 1 and (s.tier == tier or abs(s.tier - tier) == 1 and shares)):
                return True
        return False

    def offer(self, kind, call, stack, span, asked_ends):
        """What a stack offers to a container: score and stay; None where nothing. `asked_ends` are those of a stay that is taken over."""
        ship, it = self.ship, self.ship.stacks[stack]
        dest, _, _, name, kg = ship.kinds[kind]
        fore, aft = self.column(stack, False), self.column(stack, True)
        if span == "both":
            tier, bears = len(fore), len(fore) == len(aft)
        else:
            column = aft if span == "aft" else fore
            tier, bears = len(column), all(s.span != "both" for s in column)
        weight = sum(ship.kinds[s.kind][4] for s in self.aboard if s.stack == stack)
        if not bears or tier >= len(it["tiers"]) or weight + kg > it["limit_kg"]:
            return None
        if stack in ship.over and ship.over[stack] in self.closed:
            return None
        if not ship.fits(kind, stack, tier, span):
            return None
        here = [s.put for s, _ in self.guide if (s.stack, s.tier, s.span) == (stack, tier, span)]
        if (call in here) != (asked_ends is not None):
            return None
        later = min((put for put in here if put > call), default=LATER)
        wanted = asked_ends if asked_ends is not None else range(LATER)
        ends = [e for e in range(call + 1, dest + 1) if e <= later and e in wanted]
        if not ends:
            return None
        least = min(self.least(stack, aft) for aft in (False, True) if span in ("both", "aft" if aft else "fore"))
        under, over = ship.under.get(stack), ship.over.get(stack)
        if under is not None:
            least = min([least] + [s.last for s in self.under_cover(under)])
        last = ends[-1]
        if least < last and least not in ends:
            return None
        if name is not None and self.near(kind, stack, tier, span):
            return None
        doomed = least < dest or last < dest
        score = 256 * (100 - (min(last, least) - call)) if doomed else self.gap * (least - dest)
        if over is not None and any(s.put == call and s.last > last for s in self.on_cover(over)):
            score += 25600
        if under is not None and not self.on_cover(under):
            room = sum(2 * len(ship.stacks[s]["tiers"]) for s, c in ship.over.items() if c == under)
            if room > sum(2 if s.span == "both" else 1 for s in self.under_cover(under)):
                score += 576
        return score + self.up * tier, Stay(kind, call, stack, tier, span, ends, doomed)

    def redeem(self, call):
        for s, lifted in self.guide:
            if s.put != call:
                continue
            found = self.offer(s.kind, call, s.stack, s.span, range(LATER) if lifted is None else [lifted])
            if found and found[1].tier == s.tier:
                self.aboard.append(found[1])
                self.waiting -= 1

    def put_one(self, kind, call):
        best = None
        for stack in self.sailed:
            for span in ["both"] if self.ship.kinds[kind][1] else ["fore", "aft"]:
                found = self.offer(kind, call, stack, span, None)
                if found:
                    score = found[0] + self.chance.noise(768)
                    if best is None or score < best[0]:
                        best = score, found[1]
        if best:
            self.aboard.append(best[1])
            self.quay[kind] -= 1
            self.waiting -= 1
        return best is not None

    def put_all(self, call, keys):
        for s, _ in self.guide:
            if s.put == call:
                if not self.quay.get(s.kind):
                    return False
                self.quay[s.kind] -= 1
        line = sorted((keys[kind], kind) for kind in self.kinds if self.quay.get(kind))
        for _ in range(40):
            before = self.waiting
            self.redeem(call)
            for _, kind in line:
                while self.quay[kind] and self.put_one(kind, call):
                    pass
            if self.waiting in (0, before):
                return self.waiting == 0
        return False

    # A run

    def exchange(self, call):
        for kind in self.comes[call]:
            self.quay[kind] = self.quay.get(kind, 0) + 1
        for kind in self.goes[call]:
            if not self.quay.get(kind):
                return False
            self.quay[kind] -= 1
        self.waiting = sum(self.quay.values())
        return True

    def is_low(self):
        return self.cost + sum(s.doomed for s in self.aboard) < self.limit

    def sail(self):
        self.prepare()
        self.taste()
        mixed = self.chance.below(100) < 35
        weight, spread = (self.chance.below(65536), 4) if mixed else (65536, 1)
        keys = {kind: weight * (32 - self.ship.kinds[kind][0]) + self.chance.below(65536) * spread for kind in self.kinds}
        self.aboard, self.ended, self.quay, self.cost = [], [], {}, 0
        for call in range(1, self.ship.calls):
            if not self.lift(call, self.dig) or not self.exchange(call) or not self.is_low():
                return False
            if not self.put_all(call, keys) or not self.is_low():
                return False
        return self.lift(self.ship.calls, 0) and self.cost < self.limit

    def look(self, runs):
        for _ in range(runs):
            if self.kept is not None and self.cost_of(self.kept) == 0:
                return
            if self.sail():
                self.kept = [s for s in self.kept or [] if s.stack not in self.sailed] + self.ended


def main():
    if len(sys.argv) != 4:
        sys.exit(__doc__)
    with open(sys.argv[1], "rb") as profile, open(sys.argv[2], "rb") as bookings:
        ship = Ship(tomllib.load(profile), tomllib.load(bookings))
    planner = Planner(ship)
    planner.look(int(sys.argv[3]))
    if planner.kept is None:
        print("no voyage")
        return
    numbers = ship.variables()
    print("cost", planner.cost_of(planner.kept))
    print("stays", *sorted(numbers[s.put, s.kind, s.lifted, (s.stack, s.tier, s.span)] for s in planner.kept))


if __name__ == "__main__":
    main()
