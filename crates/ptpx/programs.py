"""The program ptpx, or one that has a part of it: its source, and the line of its crate."""
from dataclasses import dataclass
from pathlib import Path

TOP = Path(__file__).resolve().parents[2]

# The crate that runs each subcommand, and how many seconds the kit's evaluator took for the subcommand on four idle processors, without further
# words and with some.
COMMANDS = {
    'show': ('show_command', 8, 19),
    'replay': ('transcript_command', 15, 27),
    'check': ('transcript_command', 16, 27),
    'extract': ('extract_command', 11, 21),
    'measure': ('measure_command', 16, 24),
    'audit': ('audit_command', 20, 28),
    'follow': ('follow_command', 14, 22),
    'explain': ('explain_command', 27, 36),
}
# The same for words that name none.
NO_SUBCOMMAND = 18
# The subcommands that have no options: they are told instead whether a person reads their faults.
PLAIN = ('show', 'replay', 'check')

# A subcommand without further words. Nothing in it reads arguments, which takes the evaluator long.
BARE = """//! `ptpx {name}` without further words.
#![tactic(auto)]

use {crate}::run_{name};
use std::io::IsTerminal;
use std::process::ExitCode;
use text_lines::{{Counted, OctetReader}};

fn main(rt: HostRuntime) -> ExitCode {{
    let mut input = Counted::new(OctetReader::new(rt.stdin()));
    let mut output = Counted::new(rt.stdout());
    let asked = {asked};
    ExitCode::from(run_{name}(rt.alloc(), asked, &mut input, &mut output, &mut rt.stderr()))
}}
"""

# What a program with a part of all names in place of this line of the whole one, and its own `command` below.
WHOLE = 'use whole_program::{Counted, OctetReader, command};\n'
PART = """use command_line::{names};
{use}use std::alloc::Global;
use std::io::{{Read, Write}};
use text_lines::{{Counted, OctetReader}};
"""
COMMAND = """
/// Runs the subcommand, or says what is wrong with the arguments.
fn command<R: Read, W: Write, E: Write>(
    alloc: Global,
    words: &[String],
    input: &mut Counted<R>,
    output: &mut Counted<W>,
    errors: &mut E,
    is_terminal: bool,
) -> u8 {{
    let _ = (&input, is_terminal);
    match named_subcommand(alloc, words, output, errors) {{
{arm}        Ok(_) => {{
            let _ = writeln!(errors, "ptpx: this program has only {part}");
            NO_COMMAND
        }}
        Err(status) => status,
    }}
}}
"""
ARM = '        Ok(Subcommand::{variant}) => run_{name}(alloc, {asked}, input, output, errors),\n'


@dataclass(frozen=True)
class Program:
    """A program: the name of its crate, the line of that in crates.txt, its source where that doesn't stand in the repository, and the
    seconds that the evaluator took for it."""
    name: str
    row: str
    source: str | None = None
    seconds: int = 0


def whole():
    """The program with all subcommands."""
    row = next(it for it in (TOP / 'crates.txt').read_text().splitlines() if it.startswith('ptpx:'))
    return Program('ptpx', row)


def part(uses, arm, what):
    """The source of a program that has only this part of the whole one."""
    text = (TOP / 'crates/ptpx/src/main.rt').read_text()
    if WHOLE not in text:
        raise ValueError(f'crates/ptpx/src/main.rt has no line {WHOLE}')
    return text.replace(WHOLE, uses) + COMMAND.format(arm=arm, part=what)


def alone(name):
    """The program that has one subcommand, with its options."""
    crate, _, seconds = COMMANDS[name]
    variant, asked = (name.capitalize(), 'is_terminal') if name in PLAIN else (f'{name.capitalize()}(options)', 'options')
    uses = PART.format(names='{Subcommand, named_subcommand}', use=f'use {crate}::run_{name};\n')
    source = part(uses, ARM.format(variant=variant, name=name, asked=asked), name)
    return Program(f'ptpx_{name}', f'ptpx_{name}: command_line {crate} text_lines', source, seconds)


def bare(name):
    """The program that runs one subcommand without further words."""
    crate, seconds, _ = COMMANDS[name]
    asked = 'rt.stderr().is_terminal()' if name in PLAIN else 'Default::default()'
    return Program(f'ptpx_{name}', f'ptpx_{name}: {crate} text_lines', BARE.format(crate=crate, name=name, asked=asked), seconds)


def arguments():
    """The program for words that name no subcommand."""
    source = part(PART.format(names='named_subcommand', use=''), '', 'help')
    return Program('ptpx_help', 'ptpx_help: command_line text_lines', source, NO_SUBCOMMAND)


def answering(words):
    """The least program that answers these words as the whole one does."""
    name = words[0] if words else ''
    if name not in COMMANDS:
        return arguments()
    return alone(name) if words[1:] else bare(name)


def of(words):
    """The program that is built for these words: that of the subcommand, or the whole one."""
    return alone(words[0]) if words and words[0] in COMMANDS else whole()
