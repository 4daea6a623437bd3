"""What a document means by docs/FORMATS.md: its mesh, posts and programs, or its first fault; and its canonical text."""

import tomllib
from dataclasses import dataclass, field

from support.assembly import AsmFault, assemble, printed

MOST_WINDOWS = 4096
MESH_KEYS = ("cols", "rows", "window", "vcs", "data_vcs", "lines", "sets", "ways", "controllers", "memory")
NEEDED = ("cols", "rows", "window")
DEFAULTS = {"vcs": 1, "data_vcs": 1, "lines": 16, "sets": 4, "ways": 1, "controllers": [0], "memory": []}
RANGES = {"vcs": (1, 8), "data_vcs": (1, 4), "lines": (1, 256), "sets": (1, 64), "ways": (1, 4)}
CORE_KEYS = ("tile", "code")


class DocFault(Exception):
    """The first fault, by the line that tells it."""

    def line(self):
        return f"scorpio: document: {self}".encode()


@dataclass
class Document:
    mesh: dict
    posts: list
    programs: dict = field(default_factory=dict)

    def tiles(self):
        return self.mesh["cols"] * self.mesh["rows"]

    def diameter(self):
        return self.mesh["cols"] + self.mesh["rows"] - 2

    def bound(self):
        """How many events a run has at most, where all branches and jumps go forward."""
        instructions = sum(len(program) for program in self.programs.values())
        return ((instructions + self.tiles())
                * (6 * self.tiles() + 2 * self.mesh["window"] + 2 * self.diameter() + 8))

    def canonical_text(self):
        lines = [f"posts = {_list(map(_list, self.posts))}", ""] if self.posts else []
        lines += ["[mesh]", *(f"{key} = {_value(self.mesh[key])}" for key in MESH_KEYS[:-1])]
        memory = list(self.mesh["memory"])
        while memory and memory[-1] == 0:
            memory.pop()
        if memory:
            lines.append(f"memory = {_list(memory)}")
        for tile, program in sorted(self.programs.items()):
            if program:
                lines += ["", "[[core]]", f"tile = {tile}", "code = '''", *map(printed, program), "'''"]
        return "".join(line + "\n" for line in lines).encode()


def _value(value):
    return _list(value) if isinstance(value, list) else str(value)


def _list(items):
    return "[" + ",".join(map(str, items)) + "]"


def read(data):
    """The document that bytes are, or the first fault."""
    table = _table(data)
    _look_for_unknown_keys(table)
    _look_for_missing_keys(table)
    _look_at_kinds(table)
    mesh = {**DEFAULTS, **table["mesh"]}
    document = Document(mesh, table.get("posts", []))
    cores = table.get("core", [])
    _look_at_ranges(document, cores)
    if _repeats(mesh["controllers"]):
        raise DocFault("controllers")
    tiles = [core["tile"] for core in cores]
    for tile in tiles:
        if tiles.count(tile) > 1:
            raise DocFault(f"core twice {tile}")
    for core in cores:
        document.programs[core["tile"]] = _program(core)
    return document


def _table(data):
    try:
        table = tomllib.loads(data.decode("utf-8"))
    except (UnicodeDecodeError, tomllib.TOMLDecodeError, RecursionError, ValueError):
        raise DocFault("not toml") from None
    if any(not -2**63 <= value < 2**63 for value in _integers(table)):
        raise DocFault("not toml")
    return table


def _integers(value):
    if isinstance(value, dict):
        value = value.values()
    elif not isinstance(value, list):
        return [value] if _is_integer(value) else []
    return [found for item in value for found in _integers(item)]


def _is_integer(value):
    return isinstance(value, int) and not isinstance(value, bool)


def _are_integers(value):
    return isinstance(value, list) and all(map(_is_integer, value))


def _look_for_unknown_keys(table):
    levels = [(table, ("mesh", "posts", "core"))]
    if isinstance(table.get("mesh"), dict):
        levels.append((table["mesh"], MESH_KEYS))
    levels += [(core, CORE_KEYS) for core in _core_tables(table)]
    for level, known in levels:
        for key in sorted(level, key=lambda key: key.encode()):
            if key not in known:
                raise DocFault(f"unknown key {key}")


def _core_tables(table):
    cores = table.get("core")
    return [core for core in cores if isinstance(core, dict)] if isinstance(cores, list) else []


def _look_for_missing_keys(table):
    if "mesh" not in table:
        raise DocFault("missing mesh")
    if isinstance(table["mesh"], dict):
        for key in NEEDED:
            if key not in table["mesh"]:
                raise DocFault(f"missing mesh.{key}")
    for core in _core_tables(table):
        for key in CORE_KEYS:
            if key not in core:
                raise DocFault(f"missing core.{key}")


def _look_at_kinds(table):
    mesh, posts, cores = table["mesh"], table.get("posts", []), table.get("core", [])
    checks = [("mesh", isinstance(mesh, dict)),
              ("posts", isinstance(posts, list) and all(map(_are_integers, posts))),
              ("core", isinstance(cores, list) and all(isinstance(core, dict) for core in cores))]
    if isinstance(mesh, dict):
        checks += [(f"mesh.{key}", _are_integers(mesh[key]) if isinstance(DEFAULTS.get(key), list) else _is_integer(mesh[key]))
                   for key in MESH_KEYS if key in mesh]
    for core in _core_tables(table):
        checks += [("core.tile", _is_integer(core["tile"])), ("core.code", isinstance(core["code"], str))]
    _first_failed("wrong kind", checks)


def _look_at_ranges(document, cores):
    mesh = document.mesh
    sides = [(f"mesh.{key}", 1 <= mesh[key] <= 8) for key in ("cols", "rows")]
    _first_failed("out of range", sides)
    tiles = document.tiles()
    checks = [("posts", len(document.posts) <= MOST_WINDOWS
               and all(_are_tiles(window, tiles) and not _repeats(window) for window in document.posts)),
              ("mesh.window", max(1, document.diameter()) <= mesh["window"] <= 64)]
    checks += [(f"mesh.{key}", low <= mesh[key] <= high) for key, (low, high) in RANGES.items()]
    checks += [("mesh.controllers", _are_tiles(mesh["controllers"], tiles)),
               ("mesh.memory", len(mesh["memory"]) <= 4 * mesh["lines"]
                and all(0 <= word < 2**32 for word in mesh["memory"]))]
    checks += [("core.tile", 0 <= core["tile"] < tiles) for core in cores]
    _first_failed("out of range", checks)


def _are_tiles(items, tiles):
    return 1 <= len(items) <= tiles and all(0 <= tile < tiles for tile in items)


def _repeats(items):
    return len(set(items)) < len(items)


def _first_failed(what, checks):
    for key, holds in checks:
        if not holds:
            raise DocFault(f"{what} {key}")


def _program(core):
    try:
        return assemble(core["code"])
    except AsmFault as fault:
        raise DocFault(f"core {core['tile']} line {fault.line} kind {fault.kind}") from None
