"""Writes the reports of sessions as CSV, one file a section.

    tools/to_csv [--to FOLDER] [--script SCRIPT] [FILE ..]
    tools/to_csv [--to FOLDER] --run MODEL SCRIPT [WORDS ..]

The first form reads what sessions wrote, from the files or from standard input; each file is a session. The second form
runs the session itself: SCRIPT may have places by label and names of versions, and WORDS are the program's (--seed ..).
With --script the first form has the names, too.

It writes head.csv, name.csv, block.csv, facility.csv, queue.csv, storage.csv, table.csv, class.csv, current.csv and
future.csv into the folder (the one where you are, if none is given), and removes those of an earlier session that it
does not write. Each row begins with the session, the version (how many edits were accepted), the scenario (the
version's name in the script, as `# two doctors` gives it), the replication and the START. Rows of head.csv have the
seed and the outcome besides: COMPLETE, HORIZON, DRY, ERROR X5, and TOOLONG, NOSTART or MEMORY of a run that has no
report. table.csv has the mean, the deviation and the number of values of each table, class.csv its classes: above one
limit, up to the other; a limit that is not there is empty. A report that was asked for twice is written once.

Status 1: an output is broken off (what is whole is written), or with --run the session failed. Status 2: bad input."""
import sys

from . import script, tables
from .answers import NoAnswer
from .command import Problem, Words, lines_of, warn
from .program import Model, ran


def read_session(reader: tables.Reader, written: bytes, name: str) -> list[tables.Run]:
    try:
        runs = reader.read(written)
    except (NoAnswer, ValueError, IndexError) as why:
        raise Problem(f"{name} is not what a session writes: {why}") from None
    if reader.broken:
        warn(f"{name}: {reader.broken}; what is whole is written")
    if reader.untold:
        warn(f"{name}: {reader.untold} answers without a report do not name their replication; --script does")
    return runs


def by_files(words: Words) -> tuple[list[tables.Run], int]:
    runs, status = [], 0
    late = next((word for word in words.rest if word.startswith("--")), None)
    if late:
        raise Problem(f"{late} stands in front of the files; --help shows how")
    for number, path in enumerate(words.rest or ["-"], 1):
        if path == "-":
            written = sys.stdin.buffer.read()
        else:
            with open(path, "rb") as file:
                written = file.read()
        lines = None
        if "--script" in words.options:
            lines = script.read(lines_of(words.options["--script"]))
        reader = tables.Reader(number, lines)
        runs += read_session(reader, written, "standard input" if path == "-" else path)
        status = 1 if reader.broken else status
    return runs, status


def by_running(words: list[str]) -> tuple[list[tables.Run], int]:
    if len(words) < 2:
        raise Problem("--run wants a MODEL and a SCRIPT")
    model, asked = Model.of_file(words[0]), words[2:]
    lines = script.resolve(script.read(lines_of(words[1])), model, asked)
    session = ran(model, asked, script.plain(lines))
    if session.stderr:
        sys.stderr.write(session.stderr.decode("latin-1"))
    if session.returncode and not session.stdout:
        raise Problem("the program wrote nothing")
    seed = next((int(after) for word, after in zip(asked, asked[1:]) if word == "--seed" and after.isdecimal()), 1)
    reader = tables.Reader(1, lines, seed)
    return read_session(reader, session.stdout, "the session"), 1 if session.returncode or reader.broken else 0


def main(words: list[str]) -> int:
    read = Words(words, "--to --script", "--run", in_front=True)
    runs, status = by_running(read.rest) if "--run" in read.flags else by_files(read)
    if not runs:
        raise Problem("no report was written")
    for _, line in tables.outcomes(run.outcome for run in runs):
        warn(line)
    tables.write(read.options.get("--to", "."), tables.of_runs(runs))
    return status
