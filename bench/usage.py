"""What a subcommand takes over a file. Needs Linux and /usr/bin/time."""
import pathlib
import subprocess
import tempfile

PROGRAM = pathlib.Path(__file__).resolve().parents[1] / 'crates/ptpx/out/ptpx'
RUNS = 5


def usage_of(subcommand, lines):
    """User seconds and kilobytes that a subcommand takes over a file, the least of so many runs."""
    def run():
        with open(lines) as file, tempfile.NamedTemporaryFile('r') as told:
            command = ['/usr/bin/time', '-f', '%U %M', '-o', told.name, PROGRAM, subcommand]
            subprocess.run(command, check=True, stdin=file, stdout=subprocess.DEVNULL, stderr=subprocess.DEVNULL)
            seconds, kilobytes = told.read().split()
        return float(seconds), int(kilobytes)
    runs = [run() for _ in range(RUNS)]
    return min(seconds for seconds, _ in runs), min(kilobytes for _, kilobytes in runs)
