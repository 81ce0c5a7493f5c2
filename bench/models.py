"""Lines as models for other solvers: the standard form of the cyclic hoist scheduling problem, with starts modulo the
period, written from the rules of a legal timetable alone. It knows nothing of the program's constraints and questions.

A model has whole variables with ranges, among them the period T, which is to be least, and 0-1 variables. It is a list
of disjunctions: of each, one alternative has to hold, which is a list of inequalities or a 0-1 variable that is 0.
"""
import tomllib


class Line:
    """A line file of version 1: one tank for each stage."""

    def __init__(self, text):
        it = tomllib.loads(text)
        if it["version"] != 1:
            raise ValueError("only lines of version 1 have a model here")
        self.track, self.gap, self.hoists = it["track"], it["gap"], it["hoists"]
        self.degree = it["degree"]
        self.longest, self.load, self.unload = it["max_period"], it["load"], it["unload"]
        places = {tank["name"]: tank["at"] for tank in it["tank"]}
        stages = it["stage"]
        self.tanks = [stage["tank"] for stage in stages]
        self.at = [places[name] for name in self.tanks]
        self.least = [stage.get("min", 0) for stage in stages]
        self.most = [stage.get("max") for stage in stages]
        self.lift = [stage.get("lift", 0) for stage in stages]
        self.lower = [stage.get("lower", 0) for stage in stages]
        self.steps = len(stages) - 1

    def lasting(self, step):
        return self.lift[step] + abs(self.at[step + 1] - self.at[step]) + self.lower[step + 1]

    def places(self, step):
        """The position at each tick of the move, from its start to its end."""
        one, other = self.at[step], self.at[step + 1]
        way = range(one, other, 1 if other > one else -1)
        return [one] * self.lift[step] + list(way) + [other] * (self.lower[step + 1] + 1)

    def reaches(self, hoist, step):
        low, high = hoist * self.gap, self.track - (self.hoists - 1 - hoist) * self.gap
        return all(low <= self.at[stage] <= high for stage in (step, step + 1))

    def forbidden(self, a, b, diff):
        """The least and the greatest start of b after the start of a that two hoists forbid, the one of b `diff` above
        the one of a, or None."""
        if diff == 0:
            before = self.lasting(b) + abs(self.at[b + 1] - self.at[a])
            after = self.lasting(a) + abs(self.at[a + 1] - self.at[b])
            return 1 - before, after - 1
        found = []
        sign = 1 if diff > 0 else -1
        for u, p in enumerate(self.places(a)):
            for v, q in enumerate(self.places(b)):
                short = self.gap * abs(diff) - sign * (q - p)
                if short > 0:
                    found += [u - v - short + 1, u - v + short - 1]
        return (min(found), max(found)) if found else None


class Model:
    def __init__(self, line):
        self.line = line
        self.ranges = {"T": (1, line.longest)}
        self.flags = []
        self.rules = []
        self.moves = [(c, k) for c in range(line.degree) for k in range(line.steps)]
        for c, k in self.moves:
            self.ranges[start(c, k)] = (0, line.longest if (c, k) != (0, 0) else 0)
            self.rules.append([[at_least({"T": 1, start(c, k): -1}, 1)]])
        self.windows()
        self.stations()
        self.tanks()
        self.hoists()

    def windows(self):
        """Dwells. One carrier is gone when the next comes, so a dwell lasts less than a period: at most two turns of
        the period lie between the two starts, which are modulo T."""
        line = self.line
        for c, k in self.moves:
            if k == 0:
                continue
            longest = min(line.longest if line.most[k] is None else line.most[k], line.longest)
            self.ranges[dwell(c, k)] = (line.least[k], max(line.least[k], longest))
            self.rules.append([[at_least({"T": 1, dwell(c, k): -1}, line.lower[k] + line.lift[k])]])
            rule = []
            for laps in range(3):
                gone = {start(c, k): 1, start(c, k - 1): -1, dwell(c, k): -1, "T": laps}
                rule.append([at_least(gone, line.lasting(k - 1)), at_most(gone, line.lasting(k - 1))])
            self.rules.append(rule)

    def stations(self):
        line = self.line
        for c in range(line.degree):
            one, other = start(c, 0), start((c + 1) % line.degree, 0)
            apart = {other: 1, one: -1} if one != other else {}
            turn = 1 if c + 1 == line.degree else 0
            self.rules.append([[at_least({**apart, "T": turn}, line.load + line.lift[0])]])
        self.rules.append([[at_least({"T": 1}, line.lower[-1] + line.unload)]])

    def apart(self, one, other, low, high):
        """The ways in which the start of `other` after that of `one`, modulo T, isn't from low to high."""
        ways = []
        for turn in range(-2, 3):
            offset = {other: 1, one: -1}
            ways.append([at_least({**offset, "T": turn}, high + 1), at_most({**offset, "T": turn - 1}, low - 1)])
        return ways

    def tanks(self):
        """Two visits of one tank, of two stages or of two carriers."""
        line = self.line
        visits = [(c, k) for c in range(line.degree) for k in range(line.steps + 1)]
        for i, (c, k) in enumerate(visits):
            for d, m in visits[i + 1:]:
                if line.tanks[k] == line.tanks[m]:
                    self.rules.append(self.held_apart((c, k), (d, m)))

    def hold(self, c, k):
        """The move that a hold is reckoned from, the ticks from its start to the begin of the hold, and how long that
        lasts: a dwell and a number of ticks."""
        line = self.line
        if k == 0:
            return start(c, 0), -line.load, {}, line.load + line.lift[0]
        begin = line.lasting(k - 1) - line.lower[k]
        if k == line.steps:
            return start(c, k - 1), begin, {}, line.lower[k] + line.unload
        return start(c, k - 1), begin, {dwell(c, k): 1}, line.lower[k] + line.lift[k]

    def held_apart(self, one, other):
        """The other, some turns later, begins when the one is over, and is over when the one comes again."""
        (a, x, stay, ticks), (b, y, other_stay, other_ticks) = self.hold(*one), self.hold(*other)
        ways = []
        for turn in range(-2, 4):
            ways.append([
                at_least(sum_of({b: 1}, {a: -1}, negated(stay), {"T": turn}), x + ticks - y),
                at_least(sum_of({a: 1}, {b: -1}, negated(other_stay), {"T": 1 - turn}), y + other_ticks - x),
            ])
        return ways

    def hoists(self):
        line = self.line
        for c, k in self.moves:
            self.rules.append([[at_least({"T": 1}, line.lasting(k) + abs(line.at[k + 1] - line.at[k]))]])
            if line.hoists > 1:
                able = [h for h in range(line.hoists) if line.reaches(h, k)]
                self.flags += [rides(c, k, h) for h in able]
                self.rules.append([[at_least({rides(c, k, h): 1 for h in able}, 1)]])
                self.rules.append([[at_most({rides(c, k, h): 1 for h in able}, 1)]])
            elif not line.reaches(0, k):
                self.rules.append([[at_least({"T": 1}, line.longest + 1)]])
        for i, (c, k) in enumerate(self.moves):
            for d, m in self.moves[i + 1:]:
                self.collide((c, k), (d, m))

    def collide(self, one, other):
        line = self.line
        if line.hoists == 1:
            self.rules.append(self.apart(start(*one), start(*other), *line.forbidden(one[1], other[1], 0)))
            return
        for g in range(line.hoists):
            for h in range(line.hoists):
                span = line.forbidden(one[1], other[1], h - g)
                if span and line.reaches(g, one[1]) and line.reaches(h, other[1]):
                    ways = self.apart(start(*one), start(*other), *span)
                    self.rules.append([rides(*one, g), rides(*other, h), *ways])

    def smt(self):
        """The model in SMT-LIB with z3's minimize."""
        out = []
        for name, (low, high) in self.ranges.items():
            out += [f"(declare-const {name} Int)", f"(assert (and (<= {low} {name}) (<= {name} {high})))"]
        for name in self.flags:
            out += [f"(declare-const {name} Int)", f"(assert (and (<= 0 {name}) (<= {name} 1)))"]
        for rule in self.rules:
            out.append(f"(assert {smt_or([smt_way(way) for way in rule])})")
        return "\n".join([*out, "(minimize T)", "(check-sat)", "(get-value (T))", ""])

    def mzn(self):
        """The model in MiniZinc."""
        out = [f"var {low}..{high}: {name};" for name, (low, high) in self.ranges.items()]
        out += [f"var 0..1: {name};" for name in self.flags]
        for rule in self.rules:
            ways = [f"{way} = 0" if isinstance(way, str) else " /\\ ".join(mzn_row(row) for row in way) for way in rule]
            out.append("constraint " + " \\/ ".join(f"({way})" for way in ways) + ";")
        return "\n".join([*out, "solve minimize T;", 'output ["period \\(T)\\n"];', ""])

    def lp(self):
        """The model as a mixed-integer program: of each disjunction, one 0-1 variable an alternative."""
        rows, flags = [], list(self.flags)
        for i, rule in enumerate(self.rules):
            if len(rule) == 1:
                rows += [lp_row(coefficients, least) for coefficients, least in rule[0]]
                continue
            chosen = {}
            for j, way in enumerate(rule):
                if isinstance(way, str):
                    chosen[way] = -1
                    continue
                name = f"w_{i}_{j}"
                flags.append(name)
                chosen[name] = 1
                for coefficients, least in way:
                    slack = least - self.least_of(coefficients)
                    rows.append(lp_row({**coefficients, name: -slack}, least - slack))
            rows.append(lp_row(chosen, 1 + sum(c for c in chosen.values() if c < 0)))
        bounds = [f" {low} <= {name} <= {high}" for name, (low, high) in self.ranges.items()]
        rules = [f" c{i}: {row}" for i, row in enumerate(rows)]
        whole, either = [f" {name}" for name in self.ranges], [f" {name}" for name in flags]
        parts = ["Minimize", " obj: T", "Subject To", *rules, "Bounds", *bounds, "General", *whole, "Binary", *either]
        return "\n".join([*parts, "End", ""])

    def least_of(self, coefficients):
        return sum(c * self.ranges.get(name, (0, 1))[0 if c > 0 else 1] for name, c in coefficients.items())


def start(c, k):
    return f"s_{c}_{k}"


def rides(c, k, hoist):
    return f"h_{c}_{k}_{hoist}"


def dwell(c, k):
    return f"d_{c}_{k}"


def negated(part):
    return {name: -c for name, c in part.items()}


def at_least(coefficients, least):
    return {name: c for name, c in coefficients.items() if c}, least


def at_most(coefficients, most):
    return {name: -c for name, c in coefficients.items() if c}, -most


def sum_of(*parts):
    total = {}
    for part in parts:
        for name, c in part.items():
            total[name] = total.get(name, 0) + c
    return total


def smt_number(n):
    return str(n) if n >= 0 else f"(- {-n})"


def smt_way(way):
    if isinstance(way, str):
        return f"(= {way} 0)"
    rows = [f"(>= (+ 0 {' '.join(f'(* {smt_number(c)} {name})' for name, c in row.items())}) {smt_number(least)})"
            for row, least in way]
    return f"(and {' '.join(rows)})"


def smt_or(ways):
    return ways[0] if len(ways) == 1 else f"(or {' '.join(ways)})"


def mzn_row(row):
    coefficients, least = row
    return f"{' + '.join(['0', *[f'({c}) * {name}' for name, c in coefficients.items()]])} >= {least}"


def lp_row(coefficients, least):
    terms = [f"{'+' if c > 0 else '-'} {abs(c)} {name}" for name, c in coefficients.items() if c]
    return f"{' '.join(terms) or '0 T'} >= {least}"
