"""What a kind of cases is, and how values are written in a lemma."""

import re
from typing import Callable, NamedTuple


class Unchecked(Exception):
    """Raised by `claims` where a line cannot be checked: why."""


class Kind(NamedTuple):
    """How the lines of one file become lemmas."""

    file: str  # the lines are in FOLDER/file.jsonl
    homes: dict  # module (`crate.specs.Module`) -> names that the statements may use, with blanks between; `theirs=ours` where the statements use another name
    unfolding: str  # the names after `unfolding`, or "" for no such line
    claims: Callable[[dict], list]  # the statements of one line; `refl` has to prove each. None: not a case of this kind
    batch: int = 10  # how many cases one lemma file has
    helpers: str = ""  # definitions that the statements use, put at the top of each lemma file
    slow: bool = False  # its crates take minutes to prove: a folder without a case of it is no failure, unless --kinds names it


# what every lemma file may use
STD = {
    "std.specs.Prelude": "ℕ List take drop length map filter Option Some None Result Ok Err true false",
    "std.specs.List": "range_with_len flat_map",
}
ALWAYS = "use Rattle.std.specs.Prelude.{◌≡◌, refl, [], ◌∷◌, ◌++◌}"


def local_name(name):
    """The name by which a lemma file calls a definition: of `theirs=ours` it is `ours`."""
    return name.split("=")[-1]


def used_homes(kind, text):
    """The modules and names of a kind that a text mentions."""
    mentioned = set(re.findall(r"[^\W\d]\w*", text))
    homes = {}
    for module, names in [*STD.items(), *kind.homes.items()]:
        homes.setdefault(module, []).extend(name for name in names.split() if local_name(name) in mentioned)
    return {module: names for module, names in homes.items() if names}


def use_lines(kind, text):
    """The `use` lines that a text needs."""
    lines = [ALWAYS]
    for module, names in used_homes(kind, text).items():
        lines.append(f"use Rattle.{module}.{{{', '.join(name.replace('=', ' as ') for name in names)}}}")
    return "\n".join(lines)


def crates_of(kind):
    """The crates of the repository that a kind's names are from."""
    return {module.split(".")[0] for module in kind.homes if module.startswith("dc_")}


def toolchain_of(kind):
    """The crates of the toolchain that a kind's names are from, but for std, which every crate uses."""
    return {module.split(".")[0] for module in kind.homes if not module.startswith("dc_")} - {"std"}


def listing(items):
    """A list of terms, each written as text already."""
    return "(" + " ∷ ".join([*items, "[]"]) + ")"


def pair(*items):
    """A tuple of terms."""
    return "(" + ", ".join(items) + ")"


def record(**fields):
    """A record by its fields, each written as text already."""
    return "(record { " + "; ".join(f"{name} = {value}" for name, value in fields.items()) + " })"


def numbers(items):
    """A list of numbers."""
    return listing([str(int(item)) for item in items])


def word(digits):
    """A word of 80 hexadecimal digits as a list of sixteen symbols."""
    if len(digits) != 80:
        raise ValueError("a word has 80 digits")
    return numbers([int(digits[at : at + 5], 16) for at in range(0, 80, 5)])


def words(items):
    """A list of words."""
    return listing([word(item) for item in items])


def byte_list(digits):
    """Bytes in hexadecimal digits as a list of numbers."""
    return numbers(bytes.fromhex(digits))


def option(item):
    """`None` where the item is null, else `Some` of a term."""
    return "None" if item is None else f"(Some {item})"


def entry(item):
    """An entry of a log or of a list of sent entries: its kind, its bytes and, for a short, its times."""
    if "short" in item:
        return f"(short {byte_list(item['short'])} {item['times']})"
    return f"(long {byte_list(item['long'])})"


def stream(item):
    """The stream of a station."""
    shorts = listing([byte_list(value) for value in item["shorts"]])
    longs = listing([byte_list(message) for message in item["longs"]])
    return record(shorts=shorts, longs=longs, coins=numbers(item["coins"]))


def term(item):
    """A term of a rule."""
    return record(**dict(zip(["to", "factor", "station", "round", "symbol"], item)))


def said(station, digits, terms=()):
    """A station with its word and the terms of its rule; a line of version 1 has no terms."""
    return record(station=station, word=word(digits), terms=listing([term(one) for one in terms]))


def turn(item):
    """One round of a script."""
    delivery = "all_sum" if item["each"] is None else f"(each {listing([said(*one) for one in item['each']])})"
    return record(says=listing([said(*one) for one in item["says"]]), delivery=delivery)


def script(version, rounds):
    """A script."""
    return record(version=version, rounds=listing([turn(one) for one in rounds]))


def key_pair(item):
    """A pair of stations with its first and second pads."""
    return record(u=item["u"], v=item["v"], a=numbers(item["a"]), b=numbers(item["b"]))
