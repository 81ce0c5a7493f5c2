"""The lines of the generator, made anew by the rule in docs/FORMATS.md."""


def draws(seed):
    x = 1 + seed % 2147483646
    while True:
        x = 48271 * x % 2147483647
        yield x


def line_of(seed):
    """The stages, the hoists and the file of the line of a seed."""
    drawn = draws(seed)
    baths = 8 + next(drawn) % 5
    hoists = 1 + next(drawn) % 2
    is_first_again = next(drawn) % 2 == 1
    numbers = [next(drawn) % 80 for _ in range(baths)]
    end = 2 * (baths + 1)
    text = ["version = 1", f"track = {end}", "gap = 2", f"hoists = {hoists}", "degree = 1", "max_period = 2000"]
    text += ["load = 5", "unload = 5"]
    tanks = [("load", 0), *((f"t{i}", 2 * i) for i in range(1, baths + 1)), ("out", end)]
    for name, at in tanks:
        text += ["[[tank]]", f'name = "{name}"', f"at = {at}"]
    text += ["[[stage]]", 'tank = "load"', "lift = 2"]
    for i, number in enumerate(numbers, 1):
        tank = "t1" if is_first_again and i == baths else f"t{i}"
        least = 5 + number % 20
        text += ["[[stage]]", f'tank = "{tank}"', f"min = {least}"]
        if number // 20:
            text += [f"max = {least + 10 * (number // 20)}"]
        text += ["lift = 2", "lower = 2"]
    text += ["[[stage]]", 'tank = "out"', "lower = 2"]
    return baths + 2, hoists, "\n".join(text) + "\n"
