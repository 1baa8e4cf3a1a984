"""Kinds of sessions: frames, what a station sends and prints, what a hub sends, prints and writes."""

import re

from .file_kinds import pairs_of, stream_file
from .kind import Kind, byte_list, key_pair, listing, numbers, record, word, words

# All definitions that these kinds use. `computing` opens every definition of one station. Those of refusals are of the crate `dc_live`.
FRAMES = {
    "dc_spec.specs.Words": "word_of",
    "dc_spec.specs.Frames": "hello send all",
    "dc_formats.specs.Frames": "frames_bytes",
}
READ_FRAMES = {
    **FRAMES,
    "dc_frame.specs.Reading": "first reading_from reading needed",
    "dc_frame.specs.declared.fault.FrameKind.TheVariants": "Tag Length Symbol",
}
STATIONS = {
    **FRAMES,
    "std.specs.Fmt": "digits",
    "dc_station_rules.proofs.Computing": "computing",
    "dc_station_rules.specs.Stations": "log_of sent_of pending_counts",
    "dc_net_rules.specs.Runs": "station_word",
    "dc_net_rules.specs.SessionTexts": "says",
    "dc_run_texts.specs.Logs": "station_text",
}
HUBS = {
    **FRAMES,
    "dc_spec.specs.Recorded": "transcript_bytes superposed",
    "dc_spec.specs.Text": "words_text",
}
REFUSED = {
    **FRAMES,
    "dc_frame.specs.Reading": "first reading_from reading capped",
    "dc_frame.specs.declared.fault.FrameKind.TheVariants": "Tag Length Symbol",
    "dc_live.specs.declared.fault.PeerFault.TheVariants": "Frame Unexpected Hello Round",
}
REFUSED_STATIONS = {**REFUSED, "dc_live.specs.Hearing": "sums_heard"}
REFUSED_HUBS = {
    **REFUSED,
    "dc_hub_rules.specs.Hubs": "round_start complete_rounds",
    "dc_live.specs.Greeting": "greeting_fault",
    "dc_live.specs.HubSession": "words_heard sums_bytes",
}
MOST_AT_ONCE = 20  # the words of a longer session are computed one by one, since one lemma would take too much memory
HEADERS = {1: (6, "hello"), 2: (66, "send"), 3: (66, "all")}
HEADERS_BY_NAME = ["hello", "send", "all"]


def frames_of(data):
    """The whole frames that bytes begin with, as (kind, numbers, digits of the word), up to the first bytes that are no frame."""
    frames, at = [], 0
    while at + 3 <= len(data):
        size, kind = HEADERS.get(data[at], (None, None))
        body = data[at + 3 : at + 3 + (size or 0)]
        if size != int.from_bytes(data[at + 1 : at + 3], "big") or len(body) < size:
            break
        if kind == "hello":
            frames.append((kind, [int.from_bytes(body[i : i + 2], "big") for i in (0, 2, 4)], None))
        else:
            symbols = [int.from_bytes(body[i : i + 4], "big") for i in range(2, 66, 4)]
            if max(symbols) > 65536:
                break
            frames.append((kind, [int.from_bytes(body[:2], "big")], "".join(f"{symbol:05x}" for symbol in symbols)))
        at += 3 + size
    return frames


def frame(kind, item):
    """A frame as a term."""
    if kind == "hello":
        return f"hello {' '.join(map(str, item))}"
    return f"{kind} {item[0]} {word(item[1])}"


def items(case):
    """The frames of a line, as (kind, item) with the number of bytes fed when each came."""
    return [(kind, one[kind], one["fed"]) for one in case["frames"] for kind in HEADERS_BY_NAME if kind in one]


def frames(case):
    """The frames that the bytes begin with, written."""
    read = [(kind, item) for kind, item, _ in items(case)]
    if not read:
        return None
    size = sum(9 if kind == "hello" else 69 for kind, _ in read)
    return [f"frames_bytes {listing([frame(kind, item) for kind, item in read])} ≡ {byte_list(case['bytes'][: 2 * size])}"]


def fault_record(printed):
    """A fault of a frame as it is printed (`at=69 tag seen=9`) as a term."""
    at, kind, seen = printed.split(" ")
    return record(at=at[3:], kind=f"{kind.capitalize()} {seen[5:]}")


def reading_claim(read, fed, ends):
    """That these are the frames of these bytes, and that the bytes end so."""
    listed = listing([frame(kind, item) for kind, item, _ in read])
    return f"reading {byte_list(fed.hex())} ≡ {record(frames=listed, ends=ends)}"


def frames_read(case):
    """What is read of the bytes after each piece that was fed; and how many bytes are needed in the end."""
    data, read, claims = bytes.fromhex(case["bytes"]), items(case), []
    if sum(case["cuts"]) != case["fed"]:
        raise ValueError("the pieces are not the bytes fed")
    places = [sum(case["cuts"][: count]) for count in range(len(case["cuts"]) + 1)]
    if any(fed not in places for _, _, fed in read):
        raise ValueError("a frame came within a piece")
    whole = sum(9 if kind == "hello" else 69 for kind, _, _ in read)
    for place in places[-1:] if case["fault"] is None else places[-2:]:
        there = [one for one in read if one[2] <= place]
        faulty = case["fault"] is not None and place == case["fed"]
        ends = f"(Err {fault_record(case['fault'])})" if faulty else f"Ok {byte_list(data[whole:place].hex())}"
        claims.append(reading_claim(there, data[:place], ends))
    for count, (_, _, fed) in enumerate(read):
        before = places[places.index(fed) - 1]
        claims.append(f"needed {byte_list(data[:before].hex())} {count} ≡ {fed - before}")
        claims.append(f"needed {byte_list(data[:fed].hex())} {count} ≡ 0")
    if case["fault"] is None:
        claims.append(f"needed {byte_list(data[: case['fed']].hex())} {len(read)} ≡ {case['need']}")
    return claims


def words_in_order(data, kind):
    """The words of the frames of this kind for the rounds 0, 1, .. that bytes begin with."""
    found = []
    for name, fields, digits in frames_of(data):
        if name != kind or fields != [len(found)]:
            break
        found.append(digits)
    return found


def sent_claim(frames_term, digits, whole):
    """That the bytes of these frames, or their beginning, were sent."""
    sent = byte_list(digits)
    return f"{frames_term} ≡ {sent}" if whole else f"take {len(digits) // 2} ({frames_term}) ≡ {sent}"


def has_session(case):
    """Whether a station got as far as its session."""
    return case["status"] in (0, 9, 10, 11) and case["keys"][6:8] == "01"


def said_claims(case, stations, rounds, pairs, who, heard):
    """That what a station sent is what it says after the words that it heard."""
    sent, station = case["sent"], case["station"]
    if len(heard) <= MOST_AT_ONCE:
        said = f"frames_bytes (says {station} {stations} {rounds} {pairs} {who} {words(heard)})"
        return [sent_claim(said, sent, case["status"] != 10)]
    claims = [sent_claim(f"frames_bytes (hello {station} {stations} {rounds} ∷ [])", sent[:18], len(sent) >= 18)]
    frames = [sent[at : at + 138] for at in range(18, len(sent), 138)]
    if case["status"] != 10 and (len(frames) != min(len(heard) + 1, rounds) or len(frames[-1]) < 138):
        raise ValueError("another number of words was sent")
    for number, digits in enumerate(frames):
        said = f"frames_bytes (send {number} (station_word {who} {pairs} {station} {words(heard[:number])}) ∷ [])"
        claims.append(sent_claim(said, digits, len(digits) == 138))
    return claims


def station_sessions(case):
    """What a station sent, and what it printed: all of it, or a beginning where the wire or the output failed."""
    if not has_session(case):
        return None
    keys, who = bytes.fromhex(case["keys"]), stream_file(bytes.fromhex(case["stream"]))
    stations, rounds = int.from_bytes(keys[4:6], "big"), int.from_bytes(keys[6:8], "big")
    heard = words_in_order(bytes.fromhex(case["peer"]), "all")[:rounds]
    pairs = listing([key_pair(one) for one in pairs_of(keys)])
    claims = said_claims(case, stations, rounds, pairs, who, heard)
    if case["status"] in (0, 9):
        received = words(heard)
        text = f"station_text {case['station']} (log_of {received}) (sent_of {who} {received}) (pending_counts {who} {received})"
        claims.append(sent_claim(text, case["printed"].encode().hex(), case["status"] == 0))
    return claims


def session_words(case):
    """The words of each peer's `send` frames in order, by round and station. Peers past the number of stations are not asked."""
    peers = {}
    for one in case["peers"][: case["stations"]]:
        data = bytes.fromhex(one)
        station = int.from_bytes(data[3:5], "big")
        peers[station] = words_in_order(data[9:], "send")[: case["words"]]
    return [[peers[station][round] for station in range(case["stations"])] for round in range(case["words"])]


def hub_sessions(case):
    """What a hub sent to each peer, printed and wrote in a session that was done or whose output failed."""
    if case["status"] not in (0, 9):
        return None
    if any(case["sent"][case["stations"] :]):
        raise ValueError("something was sent to a peer that is no station")
    rounds = session_words(case)
    published = words([digits for one in rounds for digits in one])
    session = record(stations=case["stations"], rounds=case["words"], words=published)
    sums = [sum_word(one) for one in rounds]
    broadcasts = listing([frame("all", (number, digits)) for number, digits in enumerate(sums)])
    claims = [f"superposed {session} ≡ {words(sums)}"]
    claims += [f"frames_bytes {broadcasts} ≡ {byte_list(sent)}" for sent in case["sent"][: case["stations"]]]
    if case["out"] is not None:
        claims.append(f"transcript_bytes {session} ≡ {byte_list(case['out'])}")
    claims.append(sent_claim(f"words_text (superposed {session})", case["printed"].encode().hex(), case["status"] == 0))
    return claims


def sum_word(published):
    """The sum of words in digits."""
    return "".join(f"{sum(int(digits[at : at + 5], 16) for digits in published) % 65537:05x}" for at in range(0, 80, 5))


def refusal(case):
    """The peer that a line accuses, and what its bytes show: a fault as a term, or None and the count of bytes after which they ended."""
    accused = re.fullmatch(r"dcnet: peer (\d+): (\w+) (.*)", case["line"])
    peer, kind, printed = int(accused[1]), accused[2], accused[3]
    if kind == "ended":
        return peer, "None", int(printed[3:])
    if kind == "frame":
        return peer, f"(Some (Frame {fault_record(printed)}))", None
    numbers_seen = " ".join(part.split("=")[1] for part in printed.split(" "))
    return peer, f"(Some ({kind.capitalize()} {numbers_seen}))", None


def end_claims(digits, ended):
    """That these bytes ended after so many, where they ended."""
    return [] if ended is None else [f"capped (length {{A = ℕ}} {byte_list(digits)}) ≡ {ended}"]


def heard_claim(heard, digits, spoken, fault):
    """That these words are heard of bytes, and then this fault."""
    return f"{heard} {byte_list(digits)} ≡ {record(words=words(spoken), fault=fault)}"


def station_refusals(case):
    """What a station heard of its hub, and why it refused it."""
    if case["status"] != 11:
        return None
    rounds, digits = int(case["keys"][12:16], 16), case["peer"]
    heard = words_in_order(bytes.fromhex(digits), "all")[:rounds]
    peer, fault, ended = refusal(case)
    if peer != 0 or len(heard) == rounds:
        raise ValueError("a station has one peer, and at a refusal a sum is missing")
    return [heard_claim(f"sums_heard {rounds}", digits, heard, fault), *end_claims(digits, ended)]


def greeting_claim(case, told, digits, fault):
    """That after the hellos of these stations a peer's bytes show this fault, or none."""
    seats = record(stations=case["stations"], words=case["words"], told=numbers(told), seats="[]")
    return f"greeting_fault {seats} {byte_list(digits)} ≡ {fault}"


def greeted_claims(case, told):
    """That the first bytes of the first peers are the hellos of these stations, and fit."""
    claims = []
    for peer, station in enumerate(told):
        digits, hello = case["peers"][peer][:18], (station, case["stations"], case["words"])
        claims.append(reading_claim([("hello", hello, 9)], bytes.fromhex(digits), "Ok []"))
        claims.append(greeting_claim(case, told[:peer], digits, "None"))
    return claims


def greeted_stations(case):
    """The stations of the hellos that fit, up to the first peer whose first frame is no such hello."""
    told = []
    for digits in case["peers"][: case["stations"]]:
        kind, item, _ = (frames_of(bytes.fromhex(digits)) or [(None, None, None)])[0]
        if kind != "hello" or item[1:] != [case["stations"], case["words"]] or item[0] >= case["stations"] or item[0] in told:
            break
        told.append(item[0])
    return told


def spoken_words(case):
    """The words of each peer's `send` frames in order, behind its hello."""
    return [words_in_order(bytes.fromhex(one)[9:], "send")[: case["words"]] for one in case["peers"][: case["stations"]]]


def sums_claims(case, told, rounds):
    """That so many rounds are complete by the words that the peers gave, and that their sums, or a beginning of them, were sent to each peer."""
    spoken = spoken_words(case)
    arrivals = listing([record(station=station, round=number, word=word(said[number])) for number in range(rounds) for station, said in zip(told, spoken)])
    sums = f"sums_bytes {case['stations']} {arrivals} {rounds}"
    sent = [sent_claim(sums, digits, case["status"] == 11) for digits in sorted(set(case["sent"][: case["stations"]]))]
    return [f"complete_rounds {case['stations']} {case['words']} {arrivals} ≡ {rounds}", *sent]


def refused_greeting(case, told):
    """Why a hub refused the hello of a peer, where it accepted those of all peers before it."""
    peer, fault, ended = refusal(case)
    if peer != len(told) or any(case["sent"]):
        raise ValueError("another peer is refused, or something was sent before all peers are greeted")
    digits = case["peers"][peer]
    claims = [greeting_claim(case, told, digits, fault), *end_claims(digits, ended)]
    return claims if ended is None else [*claims, f"(reading {byte_list(digits)}).frames ≡ []"]


def refused_word(case, told):
    """Why a hub refused a peer in a round, and that it sent the sums of the rounds before it."""
    peer, fault, ended = refusal(case)
    spoken, rounds = spoken_words(case), len(spoken_words(case)[peer])
    claims = [heard_claim(f"words_heard {case['words']}", case["peers"][peer], spoken[peer], fault), *end_claims(case["peers"][peer], ended)]
    for other, said in enumerate(spoken):
        claims.append(f"take {rounds} (words_heard {case['words']} {byte_list(case['peers'][other])}).words ≡ {words(said[:rounds])}")
    return claims + sums_claims(case, told, rounds)


def hub_refusals(case):
    """Why a hub refused a peer, and what it had sent to each; where the wire failed, that it had sent a beginning of sums."""
    if case["status"] == 10 and any(case["sent"]):
        return sums_claims(case, greeted_stations(case), -(-max(map(len, case["sent"])) // 138))
    if case["status"] != 11:
        return None
    told = greeted_stations(case)
    return greeted_claims(case, told) + (refused_greeting if len(told) < case["stations"] else refused_word)(case, told)


def unchecked_wire(case):
    """What of a session that a wire ended is not checked."""
    return "no kind computes at which call the wire fails" if case["status"] == 10 else None


def unchecked_station(case):
    """What of a station's session is not checked."""
    if not has_session(case):
        return "agreement of files, and key files of version 2, are not defined yet"
    return unchecked_wire(case)


# what of a line no kind here checks
UNCHECKED = {
    "station_sessions": unchecked_station,
    "hub_sessions": unchecked_wire,
}

KINDS = {
    "frames_written": Kind("frames", FRAMES, "word_of", frames, 50),
    "frames_read": Kind("frames", READ_FRAMES, "word_of first reading_from", frames_read, 10),
    "station_sessions": Kind("station_sessions", STATIONS, "computing digits", station_sessions, 10),
    "station_refusals": Kind("station_sessions", REFUSED_STATIONS, "word_of first reading_from sums_heard", station_refusals, 10, slow=True),
    "hub_sessions": Kind("hub_sessions", HUBS, "word_of", hub_sessions, 10),
    "hub_refusals": Kind("hub_sessions", REFUSED_HUBS, "word_of first reading_from words_heard round_start", hub_refusals, 5, slow=True),
}
