"""Kinds of files: what a format writes, and what its reader reads or refuses. The files are taken apart here, by other code than the program's."""

from .kind import Kind, Unchecked, byte_list, key_pair, listing, local_name, numbers, record, script, stream, words

# All definitions that these kinds use.
WRITING = {
    "std.specs.Fmt": "digits",
    "dc_spec.specs.Words": "word_of",
    "dc_spec.specs.Recorded": "transcript_bytes",
    "dc_spec.specs.Scripts": "all_sum each",
    "dc_formats.specs.KeyFile": "keys_bytes",
    "dc_formats.specs.StreamFile": "stream_text",
    "dc_formats.specs.ScriptFile": "script_text",
    "dc_formats.specs.ListFiles": "images_text wanted_text",
}
READ_TRANSCRIPTS = {
    "dc_spec.specs.Words": "word_of",
    "dc_superpose.specs.Reading": "words_of body_of sized transcript_of",
    "dc_superpose.specs.declared.fault.TranscriptFault.TheVariants": "Truncated Magic Stations Words Symbol Rest",
}
READ_KEYS = {
    "dc_keyfile.specs.Head": "head_of head_from_bytes ends_fault pairs_of body_of",
    "dc_keyfile.specs.Reading": "pads_of padded pair_of keys_after_head pads_from_bytes keys_from_bytes",
    "dc_keyfile.specs.declared.fault.KeyFault.TheVariants": "Truncated Magic Version Stations Words TooLarge "
    "Pair=NoPair Order Symbol FirstSecondPad Rest",
}
READ_SEEDS = {
    **READ_KEYS,
    "dc_keyfile.specs.Generator": "expanded_keys",
    "dc_keyfile.specs.SeedReading": "seed_pair_of seeds_after_head seeds_from_bytes",
    "dc_formats.specs.SeedFile": "seeds_bytes",
}
EXPAND_SEEDS = {
    "rand_core.specs.Steps": "u32_at",
    "rand_chacha.specs.Block": "quarter_round column_round diagonal_round double_rounds block_word",
    "dc_keyfile.specs.Generator": "element_at expanded_pair",
}
READ_STREAMS = {
    "std.specs.Fmt": "digits",
    "dc_stream.specs.Reading": "stream_fault=at_line stream_from_bytes",
    "dc_stream.specs.declared.fault.StreamKind.TheVariants": "NotText Word Order TooMany Number Hex Length",
}
READ_SCRIPTS = {
    "std.specs.Fmt": "digits",
    "dc_spec.specs.Words": "word_of",
    "dc_spec.specs.Scripts": "all_sum each",
    "dc_script.specs.Reading": "script_fault=at_line script_from_bytes",
    "dc_script.specs.declared.fault.ScriptKind.TheVariants": "NotText Header Form Round TooMany Misplaced Order Missing Late "
    "Unordered Terms",
}
LIST_KINDS = {
    "dc_text.specs.ListFiles": "list_fault=at_line",
    "dc_field.specs.declared.list_fault.ListKind.TheVariants": "NotText TooMany Number Word",
}
READ_IMAGES = {"std.specs.Fmt": "digits", "dc_graph.specs.Images": "perm_from_bytes", **LIST_KINDS}
READ_WANTED = {"dc_spec.specs.Words": "word_of", "dc_steer.specs.Wanted": "wanted_from_bytes", **LIST_KINDS}


def big_endian(data, at, size):
    """The number in `size` bytes from a place on."""
    return int.from_bytes(data[at : at + size], "big")


def symbols(data, at, count):
    """That many symbols of four bytes from a place on."""
    return [big_endian(data, at + 4 * index, 4) for index in range(count)]


def lines_of(data):
    """The lines of a text file."""
    return data.decode("ascii").split("\n")[:-1]


def transcript(data):
    """The content of a transcript."""
    stations, rounds = big_endian(data, 4, 2), big_endian(data, 6, 2)
    published = listing([numbers(symbols(data, 8 + 64 * place, 16)) for place in range(stations * rounds)])
    return record(stations=stations, rounds=rounds, words=published)


def pairs_of(data):
    """The pairs of a key file of version 1."""
    count = big_endian(data, 6, 2)
    pairs = []
    for place in range(big_endian(data, 8, 4)):
        at = 12 + place * (4 + 128 * count)
        first, second = symbols(data, at + 4, 16 * count), symbols(data, at + 4 + 64 * count, 16 * count)
        pairs.append({"u": big_endian(data, at, 2), "v": big_endian(data, at + 2, 2), "a": first, "b": second})
    return pairs


def key_file(data):
    """The content of a key file of version 1."""
    pairs = listing([key_pair(one) for one in pairs_of(data)])
    return record(stations=big_endian(data, 4, 2), words=big_endian(data, 6, 2), pairs=pairs)


def stream_file(data):
    """The content of a stream file."""
    parts = [line.split(" ") for line in lines_of(data)]
    rest = {kind: [line[1] for line in parts if line[0] == kind] for kind in ["short", "long", "coin"]}
    return stream({"shorts": rest["short"], "longs": rest["long"], "coins": rest["coin"]})


def script_file(data):
    """The content of a script of version 1."""
    rounds = []
    for line in lines_of(data)[1:]:
        name, *rest = line.split(" ")
        if name == "round":
            rounds.append({"says": [], "each": []})
        elif name == "all":
            rounds[-1]["each"] = None
        else:
            rounds[-1]["says" if name == "say" else "each"].append((int(rest[0]), rest[1]))
    return script(1, rounds)


def images(data):
    """The content of a PERM file."""
    return numbers(lines_of(data))


def wanted(data):
    """The content of a WANTED file."""
    return words(lines_of(data))


CONTENTS = {
    "transcript": ("transcript_bytes", transcript),
    "keys": ("keys_bytes", key_file),
    "stream": ("stream_text", stream_file),
    "script": ("script_text", script_file),
    "perm": ("images_text", images),
    "wanted": ("wanted_text", wanted),
}
MANIFEST = "the line has no content of a manifest"


def same_bytes(name, data):
    """The claim that what a format writes of a file's content is the file."""
    writer, content = CONTENTS[name]
    return f"{writer} {content(data)} ≡ {byte_list(data.hex())}"


def written(name):
    """The claims on the accepted files of a format: its content, written, is the file."""

    def claims(case):
        if case["format"] != name or case["fault"] is not None:
            return None
        return [same_bytes(name, bytes.fromhex(case["bytes"]))]

    return claims


def fault(printed, homes):
    """A fault as it is printed (`symbol pair=0 index=2 seen=70000`, `line=3 not-text`) as a term."""
    name, *fields = printed.split(" ")
    if name.startswith("line="):
        return f"at_line {name[5:]} ({fault(' '.join(fields), homes)})"
    variant = "".join(part.capitalize() for part in name.split("-"))
    variant = "NoPair" if variant == "Pair" else variant
    if variant not in {local_name(known) for names in homes.values() for known in names.split()}:
        raise Unchecked(f"the fault {name} is not defined yet")
    return " ".join([variant, *(field.split("=")[1] for field in fields)])


def read_claim(reader, homes, data, printed, content):
    """The claim that what is read of a file is its content, or its first fault."""
    due = f"Err ({fault(printed, homes)})" if printed else f"Ok {content(data)}"
    return f"{reader} {byte_list(data.hex())} ≡ {due}"


def read(name, reader, homes):
    """The claims on the files of a format: what is read of each."""

    def claims(case):
        if case["format"] != name:
            return None
        return [read_claim(reader, homes, bytes.fromhex(case["bytes"]), case["fault"], CONTENTS[name][1])]

    return claims


def scripts2(case):
    """What is read of a script of either version, or its fault; and that what is written of it is the file."""
    if case["fault"] is not None:
        return [read_claim("script_from_bytes", READ_SCRIPTS, bytes.fromhex(case["bytes"]), case["fault"], script_file)]
    content = script(case["version"], case["script"])
    return [f"script_from_bytes {byte_list(case['bytes'])} ≡ Ok {content}", f"script_text {content} ≡ {byte_list(case['bytes'])}"]


def has_ends(pair, ends):
    """Whether a pair has these numbers, and these first and last four pads of each list."""
    pads = [pair["u"], pair["v"], pair["a"][:4], pair["a"][-4:], pair["b"][:4], pair["b"][-4:]]
    return pads == [ends[name] for name in ["u", "v", "a_first", "a_last", "b_first", "b_last"]]


def seed_file(data):
    """The content of a key file of version 2."""
    pairs = []
    for place in range(big_endian(data, 8, 4)):
        at = 12 + 36 * place
        pairs.append(record(u=big_endian(data, at, 2), v=big_endian(data, at + 2, 2), seed=byte_list(data[at + 4 : at + 36].hex())))
    return record(stations=big_endian(data, 4, 2), words=big_endian(data, 6, 2), pairs=listing(pairs))


def seeds(case):
    """What both readers read of a key file of either version, and what is written of its seeds. Its pads are not computed here."""
    data = bytes.fromhex(case["bytes"])
    claims = [read_claim("seeds_from_bytes", READ_SEEDS, data, case["seeds_fault"], seed_file)]
    if case["seeds_fault"] is None:
        claims.append(f"seeds_bytes {seed_file(data)} ≡ {byte_list(case['bytes'])}")
        claims.append(f"keys_from_bytes {byte_list(case['bytes'])} ≡ Ok (expanded_keys {seed_file(data)})")
        return claims
    if case["keys_fault"] is None and not all(map(has_ends, pairs_of(data), case["pairs"])):
        raise ValueError("the pads of the line are not those of its file")
    return [*claims, read_claim("keys_from_bytes", READ_SEEDS, data, case["keys_fault"], key_file)]


def seeds_expanded(case):
    """The first and the last four pads of both lists that each seed of a key file gives."""
    if case["seeds_fault"] is not None:
        return None
    data = bytes.fromhex(case["bytes"])
    symbols_of_session = 16 * big_endian(data, 6, 2)
    claims = []
    for place, due in enumerate(case["pairs"]):
        at = 12 + 36 * place
        seed_pair = record(u=due["u"], v=due["v"], seed=byte_list(data[at + 4 : at + 36].hex()))
        for name in ["a", "b"]:
            pads = f"(expanded_pair {symbols_of_session} {seed_pair}).{name}"
            claims.append(f"take 4 {pads} ≡ {numbers(due[f'{name}_first'])}")
            claims.append(f"drop {symbols_of_session - 4} {pads} ≡ {numbers(due[f'{name}_last'])}")
    return claims


def unchecked_file(case):
    """What of a file is not checked."""
    name = case["format"]
    if name == "manifest":
        return MANIFEST if case["fault"] is None else None
    return None if name in CONTENTS else f"no format {name} here"


# what of a line no kind here checks
UNCHECKED = {
    "files": unchecked_file,
    "seeds": lambda case: "the pads between the first and the last four of a list are not computed" if case["seeds_fault"] is None else None,
}

OPENED_HEAD = "head_of head_from_bytes ends_fault pairs_of body_of"
OPENED_KEYS = f"{OPENED_HEAD} pads_of padded pair_of keys_after_head pads_from_bytes keys_from_bytes"
OPENED_SEEDS = f"{OPENED_KEYS} seed_pair_of seeds_after_head seeds_from_bytes"
OPENED_GENERATOR = "element_at u32_at quarter_round column_round diagonal_round double_rounds block_word"

KINDS = {
    "transcripts_written": Kind("files", WRITING, "word_of", written("transcript"), 100),
    "keys_written": Kind("files", WRITING, "", written("keys"), 100),
    "streams_written": Kind("files", WRITING, "digits", written("stream"), 100),
    "scripts_written": Kind("files", WRITING, "digits word_of", written("script"), 100),
    "images_written": Kind("files", WRITING, "digits", written("perm"), 100),
    "wanted_written": Kind("files", WRITING, "word_of", written("wanted"), 100),
    "transcripts_read": Kind(
        "files", READ_TRANSCRIPTS, "word_of words_of body_of sized transcript_of", read("transcript", "transcript_of", READ_TRANSCRIPTS), 100
    ),
    "keys_read": Kind("files", READ_KEYS, OPENED_KEYS, read("keys", "keys_from_bytes", READ_KEYS), 100),
    "streams_read": Kind("files", READ_STREAMS, "digits stream_from_bytes", read("stream", "stream_from_bytes", READ_STREAMS), 100),
    "scripts_read": Kind("files", READ_SCRIPTS, "digits word_of script_from_bytes", read("script", "script_from_bytes", READ_SCRIPTS), 100),
    "images_read": Kind("files", READ_IMAGES, "digits perm_from_bytes", read("perm", "perm_from_bytes", READ_IMAGES), 100),
    "wanted_read": Kind("files", READ_WANTED, "word_of wanted_from_bytes", read("wanted", "wanted_from_bytes", READ_WANTED), 100),
    "scripts2": Kind("scripts2", {**READ_SCRIPTS, **WRITING}, "digits word_of script_from_bytes", scripts2, 50),
    "seeds": Kind("seeds", READ_SEEDS, OPENED_SEEDS, seeds, 50),
    "seeds_expanded": Kind("seeds", EXPAND_SEEDS, OPENED_GENERATOR, seeds_expanded, 5),
}
