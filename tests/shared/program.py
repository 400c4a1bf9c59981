"""The program that is tried, and how it ends. A script in Python puts this folder on its path; those of readers and of what makes inputs are put there, too."""
import os
import pathlib
import select
import subprocess
import sys
import typing

TOP = pathlib.Path(__file__).resolve().parents[2]
EXAMPLES = TOP / 'examples'
PROGRAM = pathlib.Path(os.environ.get('PTPX', TOP / 'crates/ptpx/out/ptpx')).resolve()
sys.path += [str(TOP / 'tests' / it) for it in ('hostile', 'captures', 'follow', 'monitor')]


# How long a line may take that is waited for, in seconds.
PATIENCE = 20


class Ended(typing.NamedTuple):
    status: int
    output: bytes
    errors: bytes


def build():
    """Builds the program, unless PTPX names another one."""
    if 'PTPX' not in os.environ:
        subprocess.run([TOP / 'tests/build'], check=True)


def ended_of(command, octets=b'', output=subprocess.PIPE, timeout=60, **where):
    """How a command ends over an input."""
    ended = subprocess.run(command, input=octets, stdout=output, stderr=subprocess.PIPE, timeout=timeout, **where)
    return Ended(ended.returncode, ended.stdout or b'', ended.stderr)


def ask(octets, *arguments, under=(), timeout=60):
    """How the program ends with these arguments over an input; it may run under another one, which is given its words."""
    return ended_of([*under, PROGRAM, *arguments], octets, timeout=timeout)


def ask_to_full_device(octets, *arguments):
    """The same where its output can't be written."""
    with open('/dev/full', 'wb') as full:
        return ended_of([PROGRAM, *arguments], octets, full)


def begin(*arguments, errors=subprocess.DEVNULL, command=(PROGRAM,), **where):
    """The program as it runs, to be written to and read from bit by bit."""
    return subprocess.Popen([*command, *arguments], stdin=subprocess.PIPE, stdout=subprocess.PIPE, stderr=errors, bufsize=0, **where)


def write(process, octets):
    """Writes to the program. Where it has ended, its answer shows that."""
    try:
        process.stdin.write(octets)
    except BrokenPipeError:
        pass


def lines_from(process, count):
    """What the program writes until these are so many lines, or until nothing comes any more."""
    answered = b''
    while answered.count(b'\n') < count:
        ready, _, _ = select.select([process.stdout], [], [], PATIENCE)
        more = os.read(process.stdout.fileno(), 2**16) if ready else b''
        if not more:
            process.kill()
            break
        answered += more
    return answered


def fail(text):
    """Ends the script, which is called as its folder is, with what is wrong."""
    sys.exit(f'{pathlib.Path(sys.argv[0]).resolve().parent.name}: {text}')
