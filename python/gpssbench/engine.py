"""The engines of a study: one chunk of it is one session of the program; chunks run on local processes or on a cluster.

A chunk is plain data, and so is its result, so that it goes to any machine; and a result is the same wherever the chunk
ran. Which engine ran it leaves no trace in what a study writes."""
import os
import tempfile
import zipfile
from collections.abc import Callable, Iterator
from concurrent.futures import FIRST_COMPLETED, ThreadPoolExecutor, wait

from .answers import KIND_OF, BrokenOff, answers, rows
from .command import Problem, warn
from .program import Model, ran

# How many replications a session has at most.
MOST = 32
# How often a chunk is tried whose program was killed.
TRIES = 3
# The sections that are kept row by row, whatever is measured.
KEPT = ("head", "facility", "queue", "storage", "table")
WITHOUT = {"toolong": "TOOLONG", "nostart": "NOSTART", "memory": "MEMORY"}


class Killed(Exception):
    """The program of a chunk ended without an answer to all."""


def run_chunk(chunk: dict) -> dict:
    """Runs a chunk: the runs with their sections, and the sums over blocks and classes."""
    seeds = chunk["seeds"]
    model = Model("-", chunk["model"].encode("latin-1"))
    lines = [*chunk["edits"], *(f"replicate {at} {seed}" for at, (_, seed) in enumerate(seeds[1:], 2)), f"all {chunk['start']}"]
    session = ran(model, ["--seed", str(seeds[0][1]), *chunk["words"]], lines)
    try:
        listed = list(answers(session.stdout))
    except BrokenOff:
        listed = []
    if session.returncode != 0 or len(listed) != len(lines):
        raise Killed(session.stderr.decode("latin-1").strip() or f"the program ended with status {session.returncode}")
    for line, (first, _) in zip(lines[:-1], listed):
        if not first.startswith("ok "):
            raise Killed(f"`{line}` is answered `{first}`")
    first, parts = listed[-1]
    if first in WITHOUT:
        parts = [(first, "")] * len(seeds)
    return result_of(chunk, parts)


def result_of(chunk: dict, parts: list) -> dict:
    runs, blocks, classes = [], {}, {}
    for (number, seed), (head, text) in zip(chunk["seeds"], parts):
        if not text:
            runs.append([number, seed, WITHOUT.get(head, head.upper()), {}])
            continue
        (_, _, _, outcome), sections = rows(text)
        kept = {}
        for titles, cells in sections:
            kind = KIND_OF[tuple(titles)]
            if kind in KEPT or kind in chunk["measured"]:
                kept[kind] = cells
            if kind == "block":
                for label, position, verb, entry, current, _ in cells:
                    sums = blocks.setdefault(position, [label, verb, 0, 0])
                    sums[2] += int(entry)
                    sums[3] += int(current)
            elif kind == "class":
                for name, above, to, count, _ in cells:
                    key = f"{name} {above or '_'} {to or '_'}"
                    classes[key] = classes.get(key, 0) + int(count)
        runs.append([number, seed, outcome, kept])
    return {"cell": chunk["cell"], "first": chunk["first"], "runs": runs, "blocks": blocks, "classes": classes}


def locally(chunks: list[dict], jobs: int) -> Iterator[dict]:
    """Runs chunks by so many programs at once. One whose program is killed is tried again, alone."""
    with ThreadPoolExecutor(jobs) as pool:
        left = iter(chunks)
        running = {}
        tries: dict[int, int] = {}

        def start(chunk: dict) -> None:
            running[pool.submit(run_chunk, chunk)] = chunk

        for chunk in left:
            start(chunk)
            if len(running) < 2 * jobs:
                continue
            yield from finished(running, tries, start)
        while running:
            yield from finished(running, tries, start)


def finished(running: dict, tries: dict[int, int], start: Callable) -> Iterator[dict]:
    """The results of chunks that are done; those that were killed go on anew."""
    done, _ = wait(running, return_when=FIRST_COMPLETED)
    for future in done:
        chunk = running.pop(future)
        try:
            yield future.result()
        except Killed as why:
            tries[id(chunk)] = tries.get(id(chunk), 0) + 1
            if tries[id(chunk)] >= TRIES:
                raise Problem(f"scenario {chunk['cell']}, replications from {chunk['first']}: {why}") from None
            warn(f"scenario {chunk['cell']}, replications from {chunk['first']}: {why}; it is tried again")
            start(chunk)


def package_as_zip(folder: str) -> str:
    """This package in one file of a folder, for workers of a cluster that do not have it."""
    here, path = os.path.dirname(os.path.abspath(__file__)), os.path.join(folder, "gpssbench.zip")
    with zipfile.ZipFile(path, "w") as archive:
        for name in sorted(os.listdir(here)):
            if name.endswith((".py", ".md")):
                archive.write(os.path.join(here, name), f"gpssbench/{name}")
    return path


def on_cluster(chunks: list[dict], address: str) -> Iterator[dict]:
    """Runs chunks on the workers of a dask scheduler. What a lost worker had is given to another one."""
    from distributed import Client, as_completed
    from distributed.diagnostics.plugin import UploadFile

    try:
        client = Client(address, timeout="8s", set_as_default=False)
    except (OSError, TimeoutError) as why:
        raise Problem(f"no scheduler answers at {address}: {why}") from None
    with client, tempfile.TemporaryDirectory() as folder:
        if not client.scheduler_info()["workers"]:
            raise Problem(f"the scheduler at {address} has no workers")
        client.register_worker_plugin(UploadFile(package_as_zip(folder)))
        futures = [client.submit(run_chunk, chunk, pure=False, retries=TRIES) for chunk in chunks]
        for future in as_completed(futures, loop=client.loop):
            try:
                yield future.result()
            except Exception as why:  # whatever a worker raised: the chunk failed on each try
                raise Problem(f"on the cluster: {type(why).__name__}: {why}") from None
            future.release()


def engine(jobs: int, address: str | None) -> Callable[[list[dict]], Iterator[dict]]:
    if address:
        return lambda chunks: on_cluster(chunks, address)
    return lambda chunks: locally(chunks, jobs)

