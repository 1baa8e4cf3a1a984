"""Manifests: what is read of a TOML document, or its first fault."""

from .kind import Kind, byte_list, listing, numbers, option, pair, record

# All definitions that these kinds use. `manifest_on_literals` opens those that compute on a literal.
HOMES = {
    "std.specs.Prelude": "pos negsuc",
    "dc_graph.specs.declared.fault.GraphFault.TheVariants": "Stations Ends Repeated",
    "dc_manifest.specs.declared.fault.ManifestFault.TheVariants": "Toml Unknown Field Kind Range Graph Member TooLarge",
    "dc_manifest.specs.Reading": "manifest_of",
    "dc_manifest.proofs.Computing": "manifest_on_literals",
}

# how the text of a fault is written as a term: the variant, and its fields in order
FAULTS = {
    "toml": ("Toml", []),
    "unknown": ("Unknown", ["name"]),
    "field": ("Field", ["name"]),
    "kind": ("Kind", ["name"]),
    "range": ("Range", ["name", "seen"]),
    "member": ("Member", ["place"]),
    "too-large": ("TooLarge", ["symbols"]),
}
GRAPH_FAULTS = {"stations": ("Stations", "seen"), "ends": ("Ends", "place"), "repeated": ("Repeated", "place")}


def text(item):
    """A text as the list of its bytes."""
    return numbers(item.encode())


def integer(digits):
    """A whole number."""
    value = int(digits)
    return f"(pos {value})" if 0 <= value else f"(negsuc {-value - 1})"


def field(printed, name):
    """The value of the field that the text of a fault begins with, and the rest of the text."""
    if not printed.startswith(f"{name}="):
        raise ValueError(printed)
    value = printed[len(name) + 1 :]
    return value.rsplit(" seen=", 1) if name == "name" and " seen=" in value else (value, "")


def graph_fault(printed):
    """A fault of the key graph."""
    kind, value = printed.split(" ")
    variant, name = GRAPH_FAULTS[kind]
    return f"(Graph ({variant} {field(value, name)[0]}))"


def fault(printed):
    """A fault by its text."""
    kind, _, rest = printed.partition(" ")
    if kind == "graph":
        return graph_fault(rest)
    variant, names = FAULTS[kind]
    if names == ["name"]:
        return f"({variant} {text(field(rest, 'name')[0])})"
    if names == ["name", "seen"]:
        name, seen = field(rest, "name")
        return f"({variant} {text(name)} {integer(seen)})"
    return f"({variant} {' '.join(str(int(field(rest, name)[0])) for name in names)})" if names else variant


def content(case):
    """The content of a manifest."""
    edges = listing([pair(str(u), str(v)) for u, v in case["edges"]])
    return record(
        graph=record(stations=case["stations"], edges=edges),
        coalition=numbers(case["coalition"]),
        words=case["words"],
        keys=text(case["keys"]),
        streams=listing([text(name) for name in case["streams"]]),
        script=option(None if case["script"] is None else text(case["script"])),
    )


def manifests(case):
    """What is read of a document, or its first fault."""
    due = f"Ok {content(case)}" if case["fault"] is None else f"Err {fault(case['fault'])}"
    return [f"manifest_of {byte_list(case['bytes'])} ≡ {due}"]


def manifests_refused(case):
    """The first fault of a refused document."""
    if case["format"] != "manifest" or case["fault"] is None:
        return None
    return [f"manifest_of {byte_list(case['bytes'])} ≡ Err {fault(case['fault'])}"]


KINDS = {
    "manifests": Kind("manifests", HOMES, "manifest_on_literals", manifests),
    "manifests_refused": Kind("files", HOMES, "manifest_on_literals", manifests_refused),
}
