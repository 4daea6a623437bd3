"""Inputs that take a size to its extreme: depth, lengths and numbers of things, up to the limit of an input."""

from support.program import INPUT_LIMIT
from support.trials import Trial

MESH = "[mesh]\ncols = 2\nrows = 1\nwindow = 1\n"
CORE = MESH + "[[core]]\ntile = 0\ncode = '''\n"  # (a line feed after the opening quotes is no part of the text)
NOT_TOML = "not toml"


def lines_of(form, count):
    return "".join(form.format(at) for at in range(count))


# What it is, the description, and what is told of it.
FAULTY = (
    ("open brackets", "a = " + "[" * 1_000_000, NOT_TOML),
    ("nested lists", "a = " + "[" * 500_000 + "]" * 500_000, NOT_TOML),
    ("nested posts", "posts = " + "[" * 500_000 + "]" * 500_000 + "\n" + MESH, NOT_TOML),
    ("nested tables in a line", "a = " + "{a=" * 200_000 + "1" + "}" * 200_000, NOT_TOML),
    ("a dotted key", "a" + ".a" * 500_000 + " = 1", NOT_TOML),
    ("a dotted table", "[" + "a." * 500_000 + "a]", NOT_TOML),
    ("many keys", lines_of("k{} = 1\n", 80_000), "unknown key k0"),
    ("many keys under two", lines_of("a.b.c{} = 1\n", 60_000), "unknown key a"),
    ("one key many times", "k = 1\n" * 170_000, NOT_TOML),
    ("many tables", lines_of("[t{}]\n", 90_000), "unknown key t0"),
    ("many cores without keys", MESH + "[[core]]\n" * 110_000, "missing core.tile"),
    ("many cores of one tile", MESH + "[[core]]\ntile=0\ncode=''\n" * 40_000, "core twice 0"),
    ("a long word", CORE + "a" * 1_000_000 + "'''", "core 0 line 1 kind 1"),
    ("one label many times", CORE + "l:\n" * 300_000 + "'''", "core 0 line 2 kind 4"),
    ("many instructions", CORE + "halt\n" * 200_000 + "'''", "core 0 line 1025 kind 6"),
    ("a long number", MESH + "lines = " + "1" * 1_000_000, NOT_TOML),
    ("much memory", MESH + "memory = [" + "0," * 500_000 + "]", "out of range mesh.memory"),
    ("many windows", "posts = [" + "[0]," * 250_000 + "]\n" + MESH, "out of range posts"),
    ("a window of many", "posts = [[" + "0," * 500_000 + "]]\n" + MESH, "out of range posts"),
    ("a long key", '"' + "k" * 1_000_000 + '" = 1\n', "unknown key " + "k" * 1_000_000),
    ("quotes", "a = " + '"' * 1_000_000, NOT_TOML),
    ("zero bytes", "\0" * INPUT_LIMIT, NOT_TOML),
)
SHOWN = MESH.rstrip("\n") + "\nvcs = 1\ndata_vcs = 1\nlines = 16\nsets = 4\nways = 1\ncontrollers = [0]\n"
SHOWN_CORE = SHOWN + "\n[[core]]\ntile = 0\ncode = '''\n{}\n'''\n"
GOOD = (
    ("line ends", MESH + "\n" * 1_000_000, SHOWN),
    ("a long comment", MESH + "#" * 1_000_000, SHOWN),
    ("many labels", CORE + lines_of("l{}:\n", 100_000) + "jmp l5'''", SHOWN_CORE.format("jmp @0")),
    ("lines without instructions", CORE + "\n" * 1_000_000 + "halt'''", SHOWN_CORE.format("halt")),
    ("zeros before a number", CORE + "li r1 " + "0" * 1_000_000 + "7'''", SHOWN_CORE.format("li r1 7")),
    ("blanks", CORE + "li" + " \t" * 500_000 + "r1 7'''", SHOWN_CORE.format("li r1 7")),
)


def trials(_options):
    for name, text, fault in FAULTY:
        yield Trial(name, faulty, text.encode(), f"scorpio: document: {fault}".encode())
    for name, text, shown in GOOD:
        yield Trial(name, good, text.encode(), shown.encode())


def faulty(program, data, line):
    for command in ("show", "step", "run"):
        program.run([command], data).wants(2, b"", line)


def good(program, data, shown):
    program.run(["show"], data).wants(0, shown)
