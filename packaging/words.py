"""The programs, and the words of each: its commands with their words and options, its statuses, its limits.

The man pages and the completions of every shell are made of these tables, and `check` holds them against a program.
"""

from typing import NamedTuple

VERSION = "0.1"

# The programs that are built and packed, each the crate of its name. Each has a table in TABLES.
PROGRAMS = ("hoist", "hoist_prove", "hoist_report")


class Option(NamedTuple):
    """An option `--name N`: the least and the greatest N, the N where none is given, and what it means."""

    name: str
    least: int
    most: int
    default: int
    meaning: str


class Flag(NamedTuple):
    """An option `--name` without a number, and what it means."""

    name: str
    meaning: str


class Command(NamedTuple):
    """A command: its words, its options, what it does in a few words, and whole sentences. A program with one form
    alone has one command, without a name."""

    name: str
    words: tuple
    options: tuple
    brief: str
    text: str
    flags: tuple = ()


# The words that stand for something, and whether they name files.
WORDS = {
    "FILE": (True, "A line file: the tanks, stages and hoists of a line, in TOML."),
    "ANSWER": (True, "An answer to the line of FILE, whoever wrote it."),
    "LOG": (True, "A log of what the hoists of the line did, tick by tick, whoever wrote it."),
    "LIST": (True, "Names of line files, one on a line."),
    "SEED": (False, "A number from 0 to 4294967295."),
}
GREATEST_SEED = 4_294_967_295

WORKERS = Option("workers", 1, 64, 4, "How many workers search. The printed bytes are the same for each number.")
BUDGET = Option("budget", 0, 20000, 20000, "How many questions the tree of the proof may ask.")

COMMANDS = (
    Command(
        "solve",
        ("FILE",),
        (BUDGET, WORKERS),
        "search for the least period",
        "Searches for a timetable with the least period and prints an answer: its verdict, a bound below which there "
        "is no timetable, the timetable, and the tree that proves this.",
    ),
    Command(
        "check",
        ("FILE", "ANSWER"),
        (),
        "check an answer and its proof",
        "Looks at the timetable of an answer and at every node and walk of its proof, and prints one line: "
        "what is accepted, or the first reason against it.",
    ),
    Command(
        "run",
        ("FILE", "ANSWER"),
        (Option("carriers", 1, 1000, 10, "How many carriers are put on."),),
        "print the events of a run",
        "Prints each event of the run of the answer's timetable, from the empty line to the empty line.",
    ),
    Command(
        "chart",
        ("FILE", "ANSWER"),
        (),
        "draw a timetable",
        "Draws the hoists of the answer's timetable tick by tick, and lists each dwell beside its window.",
    ),
    Command(
        "drill",
        ("SEED",),
        (),
        "try the program on a line made from a number",
        "Makes a line from the number, writes, reads, solves, checks and runs it, and prints a summary that depends "
        "on the number alone.",
    ),
    Command(
        "sweep",
        ("FILE",),
        (Option("upto", 1, 4, 4, "The greatest number of carriers that enter in each period."), BUDGET, WORKERS),
        "compare the degrees of a line",
        "Solves the line with each number of carriers that enter in a period, from 1 on, and says which of them has "
        "the least period for each carrier, and whether that is settled.",
    ),
    Command(
        "margin",
        ("FILE", "ANSWER"),
        (),
        "say how far dwells may slip",
        "Prints by how many ticks all windows of the answer's timetable could be narrowed at its period and in its "
        "order of moves, and the closed walk that allows no more.",
    ),
    Command(
        "follow",
        ("FILE", "LOG"),
        (),
        "play a recorded log",
        "Plays the log on the line, and says that it keeps every rule, or at which tick it departs and how.",
    ),
    Command(
        "batch",
        ("LIST",),
        (Option("budget", 0, 500, 400, "How many questions the tree of each line may ask."), WORKERS),
        "solve several lines",
        "Solves the line of each file of the list, and prints the answers in the order of the list.",
    ),
)

class Status(NamedTuple):
    """An exit status: its number, what it says in general, and what it says of single commands."""

    number: int
    text: str
    commands: tuple = ()


STATUSES = (
    Status(
        0,
        "The command's work is done, and its text printed.",
        (
            ("solve", "The timetable has the least period."),
            ("check", "The answer is accepted."),
            ("run", "The answer has a legal timetable."),
            ("chart", "The answer has a legal timetable."),
            ("drill", "Any seed."),
            ("sweep", "A best degree is settled."),
            ("margin", "The answer has a legal timetable."),
            ("follow", "The log keeps every rule."),
            ("batch", "The list was read, and each of its files, whatever came of their lines."),
        ),
    ),
    Status(
        1,
        "The answer to the question is no.",
        (
            ("solve", "No legal timetable has a period up to max_period."),
            ("check", "The answer is rejected."),
            ("run", "The answer has no timetable, or an illegal one."),
            ("chart", "The answer has no timetable, or an illegal one."),
            ("sweep", "It is settled that no degree has a timetable."),
            ("margin", "The answer has no timetable, or an illegal one."),
            ("follow", "The log departs from the rules."),
        ),
    ),
    Status(2, "The words ask nothing; the usage is printed."),
    Status(
        3,
        "The budget was spent first.",
        (
            ("solve", "The least period lies between the bound and the printed timetable's, where there is one."),
            ("sweep", "A degree is open."),
        ),
    ),
    Status(4, "FILE is no line file: the first rule that it breaks is printed."),
    Status(
        5,
        "A file isn't of its form: the length of the longest part that such a text begins with is printed.",
        tuple((it, "ANSWER is no answer to the line.") for it in ("check", "run", "chart", "margin"))
        + (("follow", "LOG is no log of the line."), ("batch", "LIST is no list.")),
    ),
    Status(6, "A file couldn't be read; its name is printed."),
    Status(7, "Standard output didn't take the whole text."),
    Status(8, "A file has more bytes than it may; its name is printed."),
    Status(9, "There was no memory."),
)

# Each limit with the word, or the command, that it belongs to; None where it belongs to all.
LIMITS = (
    ("FILE", "line file", "65536 bytes"),
    ("ANSWER", "answer file", "1073741824 bytes"),
    ("LOG", "log file", "1073741824 bytes"),
    ("LOG", "tick lines of a log", "1 to 100000"),
    ("LIST", "list file", "65536 bytes"),
    ("LIST", "names of a list", "1 to 64, of 1 to 255 bytes each"),
    (None, "version", "1 or 2"),
    (None, "track", "1 to 1000"),
    (None, "gap", "1 to 100"),
    (None, "hoists", "1 to 6"),
    (None, "degree", "1 to 4"),
    (None, "max_period", "1 to 20000"),
    (None, "load, unload", "0 to 20000"),
    (None, "tanks", "2 to 64"),
    (None, "at", "0 to track"),
    (None, "name of a tank", "1 to 32 of A-Z a-z 0-9 _ -"),
    (None, "stages", "2 to 32"),
    (None, "tanks of an inner stage", "1 to 4"),
    (None, "min, max", "1 to 20000"),
    (None, "lift, lower", "1 to 500"),
)

ENVIRONMENT = (
    (
        "HOIST_PROGRESS",
        "Where standard error is a terminal, a run that lasts longer than a second says there once a second how many "
        "jobs have begun. With the value 0 it says nothing. Standard output is the same either way.",
    ),
)


class Program(NamedTuple):
    """A program: what it is in a few words, paragraphs about it, and all that its man page lists."""

    name: str
    brief: str
    text: tuple
    commands: tuple
    statuses: tuple
    environment: tuple
    examples: tuple


HOIST = Program(
    "hoist",
    "plans, checks and runs electroplating lines with hoists",
    (
        "A line is a row of tanks on one track, served by hoists that can't overtake one another. Carriers go from "
        "stage to stage, and each stage has a least dwell and may have a greatest. hoist looks for a timetable "
        "that repeats with the least period, and proves that no timetable has a smaller one.",
        "An option is two words, --budget and its number, or one, --budget=N. It stands at most once, anywhere "
        "behind the command. A number is decimal digits without a sign or a leading zero. All other words that "
        "begin with a dash ask nothing, --help and --version among them.",
    ),
    COMMANDS,
    STATUSES,
    ENVIRONMENT,
    (
        ("hoist solve lines/two_stations.toml > answer", "solves a line"),
        ("hoist check lines/two_stations.toml answer", "checks the answer"),
        ("hoist chart lines/two_stations.toml answer", "draws it"),
    ),
)

PROVE = Program(
    "hoist_prove",
    "finds short proofs of the least period of an electroplating line",
    (
        "hoist_prove looks for a timetable of the line of FILE that repeats with the least period, and for a short "
        "proof that no timetable has a smaller one. It prints an answer of the form that hoist solve prints, which it "
        "checks, as hoist check does, before the first byte is printed. Where the search ends without a proof, the "
        "answer is open: its bound is proved, and its timetable, where there is one, is legal.",
        "The option is two words, --nodes and its number, or one, --nodes=N. It stands at most once, before or behind "
        "FILE. A number is decimal digits without a sign or a leading zero. All other words that begin with a dash ask "
        "nothing, --help and --version among them.",
    ),
    (
        Command(
            "",
            ("FILE",),
            (Option("nodes", 0, 1_000_000_000, 300_000, "How many nodes the search may try."),),
            "find a short proof",
            "",
        ),
    ),
    (
        Status(0, "The timetable has the least period."),
        Status(1, "No legal timetable has a period up to max_period."),
        Status(2, "The words ask nothing; the usage is printed."),
        Status(3, "The search ended first. No legal timetable has a period below the bound."),
        *(it for it in STATUSES if it.number in (4, 6, 7, 8, 9)),
    ),
    (),
    (
        ("hoist_prove lines/thirteen_stages.toml > answer", "proves the least period of a line"),
        ("hoist check lines/thirteen_stages.toml answer", "checks the answer"),
    ),
)

REPORT = Program(
    "hoist_report",
    "makes a page of an answer to an electroplating line",
    (
        "hoist_report prints one page of HTML that needs nothing beside it: the timetable of ANSWER as a time-way "
        "diagram, the dwells beside their windows, and why no period is smaller. Only an answer that hoist check "
        "accepts is drawn. With --json it prints the same timetable as a document of JSON.",
        "The option stands at most once, before, between or behind the names of the files. All other words that begin "
        "with a dash ask nothing, --help and --version among them.",
    ),
    (
        Command(
            "",
            ("FILE", "ANSWER"),
            (),
            "make a page of an answer",
            "",
            (Flag("json", "Prints a document of JSON in place of the page."),),
        ),
    ),
    (
        Status(0, "The answer is accepted and has a timetable, and the page or the document was printed."),
        Status(1, "The answer is rejected, or has no timetable."),
        *(it for it in STATUSES if it.number in (2, 4)),
        Status(5, "ANSWER is no answer: the length of the longest part that such a text begins with is printed."),
        *(it for it in STATUSES if it.number in (6, 7, 8, 9)),
    ),
    (),
    (
        ("hoist solve lines/two_hoists.toml > answer", "solves a line"),
        ("hoist_report lines/two_hoists.toml answer > page.html", "makes the page"),
    ),
)

TABLES = {it.name: it for it in (HOIST, PROVE, REPORT)}


def words_of(commands):
    """The words that these commands take, each once, in the order of their table."""
    return [it for it in WORDS if any(it in command.words for command in commands)]


def limits_of(commands):
    """The limits of files and lines that these commands read."""
    words = words_of(commands)
    return [(what, limit) for word, what, limit in LIMITS if word is None or word in words]


def asked(command):
    """The words of a command as the usage has them: `[--flag] FILE [--budget N]`."""
    flags = [f"[--{it.name}]" for it in command.flags]
    return " ".join([*flags, *command.words, *(f"[--{it.name} N]" for it in command.options)])


def usage(program):
    """What the program prints where its words ask nothing."""
    heads = ["usage:"] + ["      "] * (len(program.commands) - 1)
    forms = [" ".join(filter(None, (program.name, it.name, asked(it)))) for it in program.commands]
    return "".join(f"{head} {form}\n" for head, form in zip(heads, forms))
