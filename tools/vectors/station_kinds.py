"""Kinds of one station's protocol: groups, splits, bursts, epochs, stations."""

import re

from .kind import Kind, byte_list, entry, listing, numbers, option, stream, word, words

# All definitions that these kinds use. `computing` opens every definition of one station.
HOMES = {
    "dc_spec.specs.Groups": "Group GroupFault group_count group_limb SplitFault split_count split_limb "
    "group_of total mean minus equal_value",
    "dc_spec.specs.Entries": "Entry short long Stream",
    "dc_station_rules.specs.Bursts": "Burst goes_on gave void_burst burst_count burst_limb burst_length burst_padding "
    "burst_of fragments",
    "dc_station_rules.specs.Epochs": "Epoch void_epoch Leaf EpochFault no_group no_part uneven for_root "
    "for_at_most for_nothing epoch_of leaves_at request_after is_over",
    "dc_station_rules.specs.Cycles": "Place at_reservation in_burst in_epoch place_of",
    "dc_station_rules.specs.Stations": "log_of sent_of pending_counts plain_word",
    "dc_station_rules.proofs.Computing": "computing",
}


def places_of(fault):
    """The numbers of a fault as it is printed."""
    return " ".join(re.findall(r"=(\d+)", fault))


def group_fault(fault):
    name = "group_count" if "count" in fault else "group_limb"
    return f"({name} {places_of(fault)})"


def split_fault(fault):
    name = "split_count" if "count" in fault else "split_limb"
    return f"({name} {places_of(fault)})"


def group(digits, count=None):
    """A word of digits that is a group, as that group; its count is the one given, where one is."""
    symbols = [int(digits[at : at + 5], 16) for at in range(0, 80, 5)]
    return f"(record {{ count = {symbols[0] if count is None else count}; limbs = {numbers(symbols[1:])} }})"


def groups(case):
    """What a word is as a group, and the group's total, mean and equal value."""
    read = f"group_of {word(case['word'])}"
    if "fault" in case:
        return [f"{read} ≡ Err {group_fault(case['fault'])}"]
    seen = group(case["word"], case["count"])
    value = None if case["equal_value"] is None else byte_list(case["equal_value"])
    return [
        f"{read} ≡ Ok {seen}",
        f"total {seen} ≡ {case['total']}",
        f"mean {seen} ≡ {option(case['mean'])}",
        f"equal_value {seen} ≡ {option(value)}",
    ]


def splits(case):
    """What is left of a group without a part."""
    left = f"minus {group(case['whole'])} {group(case['part'])}"
    if "fault" in case:
        return [f"{left} ≡ Err {split_fault(case['fault'])}"]
    return [f"{left} ≡ Ok {group(case['rest'])}"]


def burst_state(step):
    """What the words up to this step are."""
    if step["step"] == "goes":
        return "goes_on"
    if step["step"] == "message":
        return f"(gave {byte_list(step['message'])})"
    name = step["why"].split()[0]
    return f"(void_burst (burst_{name} {places_of(step['why'])}))"


def bursts(case):
    """What the first one, two, .. words are, and the fragments of the message that they give."""
    steps = [burst_state(step) for step in case["steps"]]
    claims = [f"states_of {words(case['words'])} {len(steps)} ≡ {listing(steps)}"]
    last = case["steps"][-1]
    if last["step"] == "message":
        claims.append(f"fragments {byte_list(last['message'])} ≡ {words(case['words'])}")
    return claims


def request(item):
    """What the next word is asked for."""
    if item == "root":
        return "for_root"
    if item == "over":
        return "for_nothing"
    return f"(for_at_most {item['at_most']})"


def leaf(item):
    """A leaf with its range."""
    return f"(record {{ value = {byte_list(item['value'])}; times = {item['times']}; low = {item['low']}; high = {item['high']} }})"


def epoch_fault(why):
    """The cause of a void word."""
    if why.startswith("uneven"):
        return f"(uneven {places_of(why)})"
    if "whole=" in why:
        return f"(no_part {split_fault(why)})"
    return f"(no_group {group_fault(why)})"


def epochs(case):
    """Word by word: what is asked before and after it, the leaves at it, the cause where it is void, whether all is over."""
    claims = []
    for k, step in enumerate(case["steps"]):
        before, now = words(case["words"][:k]), words(case["words"][: k + 1])
        why = f"Some {epoch_fault(step['why'])}" if step["step"] == "void" else "None"
        over = "false" if step["step"] == "went" else "true"
        claims.append(f"request_after (epoch_of {before}) ≡ {request(step['asked'])}")
        claims.append(f"leaves_at {before} {word(case['words'][k])} ≡ {listing([leaf(item) for item in step['leaves']])}")
        claims.append(f"cause_of (epoch_of {now}) ≡ {why}")
        claims.append(f"is_over (epoch_of {now}) ≡ {over}")
        claims.append(f"request_after (epoch_of {now}) ≡ {request(step['ask'])}")
    return claims


def phase(step):
    """What a round is for, as the helper `phase_of` writes it."""
    if step["place"] == "reserve":
        return "None"
    if step["place"] == "epoch":
        return "(Some None)"
    return f"(Some (Some ({step['field']}, {step['index']})))"


def stations(case):
    """A station's places, plain words, log, sent entries and numbers of pending entries."""
    who, received = stream(case["stream"]), words([step["received"] for step in case["steps"]])
    rounds = len(case["steps"])
    return [
        f"map (λ k. phase_of (place_of (take k {received}))) (range_with_len 0 {rounds}) ≡ {listing([phase(step) for step in case['steps']])}",
        f"map (λ k. plain_word {who} (take k {received})) (range_with_len 0 {rounds}) ≡ {words([step['plain'] for step in case['steps']])}",
        f"log_of {received} ≡ {listing([entry(item) for item in case['log']])}",
        f"sent_of {who} {received} ≡ {listing([entry(item) for item in case['sent']])}",
        f"pending_counts {who} {received} ≡ ({case['pending'][0]}, {case['pending'][1]})",
    ]


STATES = """
-- what the first words are, after one word, two words, ..
abbrev states_of : List (List ℕ) → ℕ → List Burst
unfolding computing
states_of words count = map (λ k. burst_of (take k words)) (range_with_len 1 count)
"""

CAUSES = """
-- why an epoch is void
abbrev cause_of : Epoch → Option EpochFault
cause_of (void_epoch leaves fault) = Some fault
cause_of epoch = None
"""

PHASES = """
-- what a place is for: nothing for a reservation, for an epoch nothing within, for a burst its field and which word of it
abbrev phase_of : Place → Option (Option (ℕ × ℕ))
phase_of at_reservation = None
phase_of (in_burst field words) = Some (Some (field, length words))
phase_of (in_epoch words) = Some None
"""

KINDS = {
    "groups": Kind("groups", HOMES, "computing", groups, 20),
    "splits": Kind("splits", HOMES, "computing", splits, 20),
    "bursts": Kind("bursts", HOMES, "computing states_of", bursts, 10, STATES),
    "epochs": Kind("epochs", HOMES, "computing", epochs, 10, CAUSES),
    "stations": Kind("stations", HOMES, "computing", stations, 4, PHASES),
}
