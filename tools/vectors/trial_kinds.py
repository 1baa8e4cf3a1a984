"""The kind of trials: the net of a trial, run."""

from .kind import Kind, byte_list

TRIALS = {
    "std.specs.Fmt": "digits",
    "dc_spec.specs.Words": "word_of",
    "dc_station_rules.proofs.Computing": "computing",
    "dc_net_rules.specs.Runs": "rounds_of run_of",
    "rand_chacha.specs.Block": "block_word double_rounds diagonal_round quarter_round column_round",
    "rand_core.specs.Steps": "u32_at",
    "dc_keyfile.specs.Generator": "element_at",
    "dc_net.specs.TrialNets": "trial_net",
    "dc_run_texts.specs.Trial": "trial_text",
}


def trials(line):
    """What is printed of a trial."""
    numbers = f"{line['seed']} {line['stations']} {line['words']}"
    return [f"trial_text {numbers} (run_of (trial_net {numbers})) ≡ {byte_list(line['printed'].encode().hex())}"]


def too_long(line):
    """Only small trials are computed."""
    return "a trial of more than sixteen words in all" if line["stations"] * line["words"] > 16 else None


KINDS = {"trials": Kind("trials", TRIALS, "digits word_of computing rounds_of element_at trial_text block_word double_rounds diagonal_round quarter_round column_round u32_at", lambda line: None if too_long(line) else trials(line), 1)}
UNCHECKED = {"trials": too_long}
