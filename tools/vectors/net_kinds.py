"""Kinds of the whole net: keys, forests, hubs, runs, twins, steerings."""

from .kind import Kind, entry, key_pair, listing, numbers, option, pair, record, script, stream, word, words

# All definitions that these kinds use. `computing` opens every definition of one station.
PADS = {"dc_spec.specs.Words": "word_of", "dc_key_rules.specs.PairKeys": "key_word symbols"}
GRAPHS = {
    "dc_spec.specs.Words": "word_of",
    "dc_graph_rules.specs.Graphs": "reached part is_joined",
    "dc_graph_rules.specs.Forests": "spreads chain root parents below_sums",
}
HUBS = {
    "dc_spec.specs.Words": "word_of",
    "dc_hub_rules.specs.Hubs": "replies round_start waiting complete no_station over old ahead repeated",
}
NETS = {
    "dc_spec.specs.Entries": "short long",
    "dc_spec.specs.Scripts": "all_sum each",
    "dc_station_rules.proofs.Computing": "computing",
    "dc_graph_rules.specs.Graphs": "reached",
    "dc_graph_rules.specs.Forests": "spreads chain",
    "dc_net_rules.specs.Runs": "rounds_of run_of is_alike",
    "dc_twin_rules.specs.Twins": "admits demands shifts twin",
    "dc_steering_rules.specs.Steerings": "changes_up_to steering_of steered_net",
    "dc_spec.specs.Symbols": "power_below",
}
STEERING_FAULTS = {
    **NETS,
    "dc_steer.specs.Faults": "steer_fault",
    "dc_steer.specs.declared.fault.SteerFault.TheVariants": "NotNeighbours NotHonest NeverDiffered SumDelivery RuledRound WantedWords",
}
AGREEMENT = {
    "dc_spec.specs.Words": "word_of",
    "dc_spec.specs.Scripts": "all_sum each",
    "dc_net_rules.specs.Agreement": "disagreement key_stations key_words key_missing key_stray stream_missing stream_stray "
    "script_rounds script_station script_delivery script_rule",
}


def edges(items):
    """A list of edges."""
    return listing([pair(str(u), str(v)) for u, v in items])


def flat_words(rounds):
    """The words of all rounds in one list."""
    return words([digits for items in rounds for digits in items])


def net(item, version=1):
    """A net whose script has this version."""
    keys = record(stations=item["stations"], words=item["words"], pairs=listing([key_pair(one) for one in item["keys"]]))
    return record(
        stations=item["stations"],
        edges=edges(item["edges"]),
        coalition=numbers(item["coalition"]),
        keys=keys,
        streams=listing([option(None if one is None else stream(one)) for one in item["streams"]]),
        script=script(version, item["script"]),
        words=item["words"],
    )


def keys(line):
    """The key of one round."""
    one = record(u=0, v=1, a=numbers(line["a"]), b=numbers(line["b"]))
    return [f"key_word {one} (symbols {words(line['received'])}) {line['t']} ≡ {word(line['key'])}"]


def forests(line):
    """The parents, the parts, the root of each station, which stations are joined with the first of a part, the sums below each station."""
    graph = record(stations=line["stations"], edges=edges(line["edges"]), coalition=numbers(line["coalition"]))
    parts = [numbers(one) for one in line["parts"]]
    firsts = numbers([one[0] for one in line["parts"]])
    roots = numbers([one[0] for one in line["parts"] for _ in one])
    stations = numbers([station for one in line["parts"] for station in one])
    joined = [listing(["true" if v in one else "false" for v in range(line["stations"])]) for one in line["parts"]]
    return [
        f"parents {graph} ≡ {listing([option(one) for one in line['parents']])}",
        f"map (part {graph}) {firsts} ≡ {listing(parts)}",
        f"map (root {graph}) {stations} ≡ {roots}",
        f"map (λ u. map (is_joined {graph} u) (range_with_len 0 {line['stations']})) {firsts} ≡ {listing(joined)}",
        f"below_sums {graph} {words(line['demands'])} ≡ {words(line['below_sums'])}",
    ]


def arrival(item):
    """A word that came for a round."""
    return record(station=item["station"], round=item["round"], word=word(item["word"]))


def reply(item):
    """The hub's reply to an arrival."""
    if "complete" in item:
        return f"(complete {word(item['complete'])})"
    if "waiting" in item:
        return f"(waiting {item['waiting']})"
    name, *fields = item["fault"].split()
    if name == "repeated":
        return f"(repeated {word(item['kept'])})"
    number = fields[0].split("=")[1] if fields else ""
    return {"over": "over", "station": f"(no_station {number})", "old": f"(old {number})", "ahead": f"(ahead {number})"}[name]


def hubs(line):
    """The hub's replies to all arrivals."""
    arrivals = listing([arrival(one) for one in line["steps"]])
    return [f"replies {line['stations']} {line['rounds']} {arrivals} ≡ {listing([reply(one) for one in line['steps']])}"]


def run_claims(line, version):
    """What the run of a net records, and whether all honest stations received alike."""
    expected = record(
        words=flat_words(line["words"]),
        sums=words(line["sums"]),
        delivered=flat_words(line["delivered"]),
        logs=listing([listing([entry(one) for one in log]) for log in line["logs"]]),
        sents=listing([listing([entry(one) for one in sent]) for sent in line["sents"]]),
        pending=listing([pair(str(shorts), str(longs)) for shorts, longs in line["pending"]]),
    )
    alike = "true" if all(len(set(got)) < 2 for got in line["delivered"]) else "false"
    given = net(line["net"], version)
    return [f"run_of {given} ≡ {expected}", f"is_alike {given} ≡ {alike}"]


def runs(line):
    """A run of a script of version 1."""
    return run_claims(line, 1)


def ruled(line):
    """A run of a script of version 2."""
    if line["alike"] != all(len(set(got)) < 2 for got in line["delivered"]):
        raise ValueError("the line says of its own deliveries whether they are alike")
    return run_claims(line, 2)


def twin_net(line, version):
    """The twin: station p(i) has the stream of station i, and each shift is added to the first pads of its pair."""
    added = {(u, v): [int(digits[at : at + 5], 16) for digits in shift for at in range(0, 80, 5)] for u, v, shift in line["shifts"]}
    pairs = []
    for one in line["net"]["keys"]:
        change = added.get((one["u"], one["v"]), [0] * len(one["a"]))
        pairs.append({**one, "a": [(old + more) % 65537 for old, more in zip(one["a"], change)]})
    streams = [None] * line["net"]["stations"]
    for station, image in enumerate(line["perm"]):
        streams[image] = line["net"]["streams"][station]
    return net({**line["net"], "keys": pairs, "streams": streams}, version)


def twin_claims(line, version):
    """The permutation is admitted; the demands, what is added to the first pads of tree edges, the twin, and that its words are those of the net."""
    shifted = listing([record(u=u, v=v, words=words(added)) for u, v, added in line["shifts"]])
    first, images = net(line["net"], version), numbers(line["perm"])
    second = twin_net(line, version)
    return [
        f"admits {first} {images} ≡ true",
        f"demands {first} {images} ≡ {listing([words(one) for one in line['demands']])}",
        f"shifts {first} {images} ≡ {shifted}",
        f"twin {first} {images} ≡ {second}",
        f"(run_of {second}).words ≡ (run_of {first}).words",
    ]


def twins(line):
    """A twin under a script of version 1."""
    return twin_claims(line, 1)


def ruled_twins(line):
    """A twin under a script of version 2, and that its words, sums and deliveries are those of the line."""
    second = twin_net(line, 2)
    return [
        *twin_claims(line, 2),
        f"(run_of {second}).words ≡ {flat_words(line['words'])}",
        f"(run_of {second}).sums ≡ {words(line['sums'])}",
        f"(run_of {second}).delivered ≡ {flat_words(line['delivered'])}",
    ]


def steering_claims(line, version):
    """Where two neighbours first differ, the changes of their pads, and that the steered net has the wanted sums after that."""
    expected = record(round=line["round"], symbol=line["symbol"], first=numbers(line["first"]), second=numbers(line["second"]))
    first = net(line["net"], version)
    given = f"{first} {line['u']} {line['v']} {words(line['wanted'])}"
    return [
        f"steering_of {given} ≡ {expected}",
        f"drop {line['round'] + 1} (run_of (steered_net {given})).sums ≡ {words(line['wanted'])}",
        f"take {line['round'] + 1} (run_of (steered_net {given})).sums ≡ take {line['round'] + 1} (run_of {first}).sums",
    ]


def steerings(line):
    """A steering under a script of version 1."""
    return steering_claims(line, 1)


def ruled_steerings(line):
    """A steering under a script of version 2 that is not refused."""
    return None if line.get("fault") else steering_claims(line, 2)


def steering_fault(line, version):
    """The first fault of a steering, or none."""
    fault = None
    if line.get("fault"):
        name, *fields = line["fault"].split(" ")
        variant = "".join(part.title() for part in name.split("-"))
        fault = f"({' '.join([variant, *(field.split('=')[1] for field in fields)])})"
    return [f"steer_fault {net(line['net'], version)} {line['u']} {line['v']} {words(line['wanted'])} ≡ {option(fault)}"]


def steering_faults(line):
    """A steering under a script of version 1 has no fault."""
    return steering_fault(line, 1)


def ruled_steering_faults(line):
    """The fault of a steering under a script of version 2."""
    return steering_fault(line, 2)


def plain_net(line):
    """The parts of a net that their agreement depends on: pads are zeros, streams are empty."""
    zeros = numbers([0] * (16 * line["keys"]["words"]))
    pairs = listing([record(u=u, v=v, a=zeros, b=zeros) for u, v in line["keys"]["pairs"]])
    nothing = record(shorts="[]", longs="[]", coins="[]")
    return record(
        stations=line["stations"],
        edges=edges(line["edges"]),
        coalition=numbers(line["coalition"]),
        keys=record(stations=line["keys"]["stations"], words=line["keys"]["words"], pairs=pairs),
        streams=listing([option(nothing if there else None) for there in line["streams"]]),
        script=script(line["version"], line["script"]),
        words=line["words"],
    )


def checks(line):
    """The first test of agreement that fails."""
    fault = None
    if line["fault"] is not None:
        name, *fields = line["fault"].split(" ")
        fault = f"({' '.join([name.replace('-', '_'), *(field.split('=')[1] for field in fields)])})"
    return [f"disagreement {plain_net(line)} ≡ {option(fault)}"]


RUNNING = "computing rounds_of"

KINDS = {
    "keys": Kind("keys", PADS, "word_of", keys, 30),
    "forests": Kind("forests", GRAPHS, "word_of reached spreads chain", forests, 20),
    "hubs": Kind("hubs", HUBS, "word_of round_start", hubs, 20),
    "runs": Kind("runs", NETS, RUNNING, runs, 2),
    "twins": Kind("twins", NETS, RUNNING + " reached spreads chain", twins, 2),
    "steerings": Kind("steerings", NETS, RUNNING + " power_below changes_up_to", steerings, 2),
    "ruled": Kind("ruled", NETS, RUNNING, ruled, 2),
    "ruled_twins": Kind("ruled_twins", NETS, RUNNING + " reached spreads chain", ruled_twins, 2),
    "ruled_steerings": Kind("ruled_steerings", NETS, RUNNING + " power_below changes_up_to", ruled_steerings, 2),
    "steering_faults": Kind("steerings", STEERING_FAULTS, RUNNING + " steer_fault", steering_faults, 2),
    "ruled_steering_faults": Kind("ruled_steerings", STEERING_FAULTS, RUNNING + " steer_fault", ruled_steering_faults, 2),
    "checks": Kind("checks", AGREEMENT, "word_of", checks, 10),
}
