"""Lines beside those of the generator in seeds.py: small ones with alternative tanks, and large ones.

Their numbers are drawn by the rule of the generator, so they are the same everywhere.
"""

from seeds import draws

ALTERNATIVES = range(10)
LARGE = range(10)


class Chance:
    """Whole numbers that are drawn one after another, in other sequences than those of the generator's lines."""

    def __init__(self, number):
        self.drawn = draws(1_000_000 + number)

    def between(self, least, most):
        return least + next(self.drawn) % (most - least + 1)

    def some(self, count, values):
        """So many of the values, in their order."""
        left = list(values)
        taken = [left.pop(self.between(0, len(left) - 1)) for _ in range(count)]
        return sorted(taken)


def text_of(head, places, stages):
    """A line file: the numbers of the line, the places of its tanks, and of each stage its tanks and other keys."""
    text = [f"{key} = {number}" for key, number in head.items()]
    for tank, place in enumerate(places):
        text += ["[[tank]]", f'name = "t{tank}"', f"at = {place}"]
    for stage, (tanks, keys) in enumerate(stages):
        names = ", ".join(f'"t{it}"' for it in tanks)
        has_list = head["version"] == 2 and 0 < stage < len(stages) - 1
        text += ["[[stage]]", f"tanks = [{names}]" if has_list else f"tank = {names}"]
        text += [f"{key} = {number}" for key, number in keys.items()]
    return "\n".join(text) + "\n"


def window(chance, shortest, longest, slack):
    """A least dwell, and in three of four cases a greatest one."""
    least = chance.between(shortest, longest)
    has_most = chance.between(0, 3) > 0
    return {"min": least, **({"max": least + chance.between(slack // 4, slack)} if has_most else {})}


def alternative_line(number):
    """A line of five to seven baths, two to four of which have a second tank, with one hoist or two."""
    chance = Chance(number)
    baths, hoists = 5 + number % 3, 1 + number % 2
    seconds = chance.some(2 + number % 3, range(1, baths + 1))
    # The tanks go by their places: the load, the baths, each with its second tank behind it, and the unload.
    tanks, count = [[0]], 1
    for bath in range(1, baths + 1):
        has_second = bath in seconds
        tanks.append([count, count + 1] if has_second else [count])
        count += 1 + has_second
    tanks.append([count])
    places = [2 * it for it in range(count + 1)]
    head = {"version": 2, "track": places[-1], "gap": 2, "hoists": hoists, "degree": 1, "max_period": 2000}
    head.update(load=5, unload=5)
    inner = [(it, {**window(chance, 20, 60, 40), "lift": 2, "lower": 2}) for it in tanks[1:-1]]
    return text_of(head, places, [(tanks[0], {"lift": 2}), *inner, (tanks[-1], {"lower": 2})])


# The track, the gap, the hoists and the degree of large lines.
SIZES = ((100, 3, 2, 1), (300, 10, 3, 2), (1000, 20, 6, 4), (400, 10, 4, 1), (600, 10, 5, 3))


def large_line(number):
    """A line of 30 stages between load and unload; in every second one some stages have a second tank."""
    chance = Chance(100 + number)
    track, gap, hoists, degree = SIZES[number % len(SIZES)]
    places = chance.some(32, range(track + 1))
    head = {"version": 1 + number % 2, "track": track, "gap": gap, "hoists": hoists, "degree": degree}
    head.update(max_period=20000, load=10, unload=10)
    stages = [([0], {"lift": 5})]
    for tank in range(1, 31):
        # The tank after the next one, which neither of the stages beside this one has as its first.
        has_second = number % 2 == 1 and tank % 3 == 1 and tank + 3 <= 30 and chance.between(0, 1) == 1
        tanks = [tank, tank + 3] if has_second else [tank]
        stages.append((tanks, {**window(chance, 40, 280, 160), "lift": 5, "lower": 5}))
    stages.append(([31], {"lower": 5}))
    return text_of(head, places, stages)
