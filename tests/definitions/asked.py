"""Sees that docs/contracts finds each crate, public call and definition, prints what it should of some that are known, has all of them on its two pages,
and refuses what isn't there."""

import importlib.machinery
import importlib.util
import re
import subprocess
import sys

import calls

COMMAND = calls.TOP / "docs/contracts"

# What is printed of a name: these lines, in this order, and others between them.
KNOWN = {
    "event_codec::Nibble::value": [
        "event_codec::Nibble::value, a public call: crates/event_codec/src/nibble.rt, line \\d+",
        "    /// The value, 0 to 15.",
        "    pub (const )?fn value\\(self\\) -> u8",
        "    +ensures value { .*",
        "    +ensures within { .*",
    ],
    "decode": [
        "event_codec::decode, a public call: crates/event_codec/src/decoding.rt, line \\d+",
        "/// The message that the octets begin with, and its messageLength.*",
        "    ensures read { .*",
        "    ensures only { .*",
        "    ensures refused { .*",
        "Its clauses name",
        "  crates/event_codec/specs/Packet.antt: .*\\bPacket\\b.*",
        "  crates/event_codec/specs/Refusal.antt: decode_refusal",
    ],
    "ptp_units::IsStamp": [
        "IsStamp, a definition: crates/ptp_units/specs/Moment.antt, line \\d+",
        "-- what a Timestamp may hold: 48 bits of seconds, and less than a second of nanoseconds",
        "pub record IsStamp \\(s : Stamp\\) : Type 0 where",
        "  pub seconds : s.seconds < 2 \\^ 48",
        "It names",
        "  crates/ptp_units/specs/Moment.antt: Stamp",
    ],
    "tap_sums": [
        "# `tap_sums`",
        "What happened to messages between two taps, as text and in sums: crossings as lines of JSON and as rows of a table; their sums, exact, and as lines of JSON; "
        "and what people are told beside these: medians of the last ones of each kind, what a line through the rests of Syncs is drawn by, which fields changed "
        "between the taps, and of which records nothing is told; and what speaks against all that\\.",
        "Crossings are to be as `Taps::meet` tells them\\. Sums are exact, and none overflows: of each kind the first 2\\^63 - 1 count\\. Means, asymmetry and mean",
        "\\| call \\| says \\| clauses \\|",
        "\\| `tap_sums::push_json` \\| .*",
        "\\| definition \\| says \\|",
    ],
    "trace_model::Sound": [
        "Sound, a definition: crates/trace_model/specs/Sound.antt, line \\d+",
        "pub record Sound .*",
        "crates/trace_model/specs/Sound.antt, a file of definitions",
        "\\| `HasExchange` \\| .*",
    ],
}

# Words that are refused, and a part of why.
WRONG = {
    (): "it needs a name",
    ("--rests",): "it needs a name",
    ("--calls", "decode"): "--calls has nothing behind it",
    ("--everything",): "there is no option --everything",
    ("decode", "event_codec::decoed"): "is called event_codec::decoed; near it are event_codec::decode",
    ("--rests", "no_such_thing_at_all"): "is called no_such_thing_at_all",
    ("pairing::Packet",): "is called pairing::Packet",
}


def contracts():
    """The command as a module."""
    loader = importlib.machinery.SourceFileLoader("contracts", str(COMMAND))
    module = importlib.util.module_from_spec(importlib.util.spec_from_loader("contracts", loader))
    loader.exec_module(module)
    return module


def run(*words):
    ended = subprocess.run([COMMAND, *words], capture_output=True, text=True, check=False)
    return ended.stdout, ended.stderr, ended.returncode


def wrong_names(command):
    """Names of which nothing, or something else, is printed."""
    for its_calls in command.all_calls().values():
        for call in its_calls:
            text = "\n".join(command.answer([call.name]))
            head = rf"^{call.name}, a public call: crates/{call.crate}/src/{call.file}, line {call.line + 1}$"
            missing = [name for _, name, _ in call.clauses if name and not re.search(rf"\b(requires|ensures)\*? {name} \{{", text)]
            if not re.search(head, text, re.M) or not re.search(rf"\bfn {call.name.rpartition('::')[2]}\b", text) or missing:
                yield f"of {call.name} it prints {text}"
    for crate, file, name in command.all_definitions()[1]:
        text = "\n".join(command.answer([f"{crate}::{name}"]))
        if f"\n{name}, a definition: crates/{crate}/specs/{file}.antt, line " not in f"\n{text}":
            yield f"of the definition {crate}::{name} it prints {text}"
    for crate in command.crates():
        if not "\n".join(command.answer([crate])).startswith(f"# `{crate}`"):
            yield f"of the crate {crate} it prints something else"


def wrong_pages(command):
    """What the two pages lack, or have twice."""
    named = [call.name for its_calls in command.all_calls().values() for call in its_calls]
    if re.findall(r"^\| `([^`]*)` \|", "\n".join(command.answer(["--calls"])), re.M) != named:
        yield "--calls has other calls"
    rows, crate, file = [], None, None
    for line in command.answer(["--definitions"]):
        if heading := re.match(r"## `(\w+)`$", line):
            crate = heading[1]
        elif row := re.match(r"\| \*\*(\S+)\*\* \|", line):
            file = row[1]
        elif row := re.match(r"\| (and )?(`.*?`) \|", line):
            rows += [(crate, file, name) for name in re.findall(r"`([^`]+)`", row[2])]
    if sorted(rows) != sorted(command.all_definitions()[1]):
        yield "--definitions has other definitions"


def wrong_answers():
    """What the command prints of known names, and refuses."""
    for name, lines in KNOWN.items():
        text, said, status = run(name)
        if status or said or not re.fullmatch("".join(f"(?:.*\n)*{line}\n" for line in lines) + "(?:.*\n)*", text):
            yield f"of {name} it prints {text}{said}"
    for words, why in WRONG.items():
        text, said, status = run(*words)
        if (text, status) != ("", 2) or why not in said or said.count("\n") != 1:
            yield f"{' '.join(words)} isn't refused by '{why}': {status}, {text}{said}"
    rests = run("--rests", "event_codec::decode")[0].splitlines()
    if not {"event_codec Packet Packet", "event_codec Refusal decode_refusal", "ptp_units Moment Stamp"} <= set(rests):
        yield "--rests event_codec::decode lacks what it rests on"
    if not {"event_codec", "event_codec::decode", "event_codec::Packet"} <= set(run("--list")[0].split()):
        yield "--list lacks names"
    if not re.search(r"^exchange_check: A checker of transcripts .* Stands on (?!.*event_codec).*\btrace_model\b.*\.$", run("--crates")[0], re.M):
        yield "--crates lacks a crate"
    if run("--help")[2] or "usage: docs/contracts NAME" not in run("--help")[0]:
        yield "--help has no usage"


def main():
    command = contracts()
    wrong = [*wrong_names(command), *wrong_pages(command), *wrong_answers()]
    print(*(f"docs/contracts: {what}" for what in wrong), sep="\n", end="\n" if wrong else "")
    return 1 if wrong else 0


if __name__ == "__main__":
    sys.exit(main())
