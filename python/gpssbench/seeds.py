"""Seeds, and RMULT values, whose streams are far apart.

    tools/seeds COUNT [--draws N] [--rmult V1,V2,..] [--plain]

Prints COUNT seeds, such that no two of the streams of all these replications come within N draws of each other (100,000
without --draws). The model is taken to have the RMULT of docs/seeds.md in front, or the one of --rmult; with --plain it
has none, and uses the streams as they are. The first 32 are those of docs/seeds.md, where these are far enough apart.
Where so many are impossible, it says so: the generator has 2,147,483,646 numbers."""
import random
from bisect import bisect_left
from collections.abc import Iterable, Sequence

from .command import Problem, Words

MODULUS, FACTORS = 2147483647, (2, 9, 7, 11, 31, 151, 331)
PERIOD = MODULUS - 1
MULTIPLIER = 16807
RMULT = (388545018, 1322356005, 1740193506, 1654002934, 1364872716, 786730926, 2102827942)
PLAIN = (1, 2, 3, 4, 5, 6, 7)
RECOMMENDED = (
    1945846388, 1553200962, 1474719581, 1690380848, 1647066085, 1890707552, 1943648586, 558975189,
    1448425003, 219005042, 1945396167, 58939200, 884739050, 2135250881, 1019778038, 2041193451,
    966080782, 885724237, 449077993, 681546119, 1343979494, 1464116372, 1348940779, 444118859,
    1231958990, 434396876, 180854897, 609752397, 552436999, 351790258, 1340937564, 472728317,
)


def logarithms() -> list[tuple[int, dict[int, int], int]]:
    """For each factor of the period: what is left of it, the powers of its root, and the part of the answer."""
    found = []
    for factor in FACTORS:
        rest = PERIOD // factor
        step, power, places = pow(MULTIPLIER, rest, MODULUS), 1, {}
        for count in range(factor):
            places[power] = count
            power = power * step % MODULUS
        found.append((rest, places, rest * pow(rest, -1, factor)))
    return found


LOGARITHMS = logarithms()


def place(number: int) -> int:
    """At which draw of the generator a number comes: its discrete logarithm, by each factor of the period."""
    return sum(places[pow(number, rest, MODULUS)] * part for rest, places, part in LOGARITHMS) % PERIOD


def begins(value: int, seed: int) -> int:
    """What a stream that an RMULT set to a value begins with, in a replication with a seed."""
    return 1 + (value + seed - 2) % PERIOD


def places(seed: int, streams: Iterable[int]) -> list[int]:
    return [place(begins(value, seed)) for value in streams]


def least_gap(seeds: Sequence[int], streams: Sequence[int]) -> int:
    """How many draws the nearest two streams of all replications are apart."""
    listed = sorted(at for seed in seeds for at in places(seed, streams))
    return min([b - a for a, b in zip(listed, listed[1:])] + [listed[0] + PERIOD - listed[-1]])


def far_apart(count: int, draws: int, streams: Sequence[int] = RMULT, first: Sequence[int] = RECOMMENDED) -> list[int]:
    """Seeds whose streams are all `draws` apart or more: the first ones as far as they are, and then others, always the
    same ones."""
    room = count * len(streams) * draws
    if room > PERIOD // 2:
        raise Problem(
            f"impossible: {count} replications with {len(streams)} streams of {draws:,} draws take {room:,} of the"
            f" generator's 2,147,483,646 numbers, and more than half cannot be kept apart. Ask for fewer draws or replications"
        )
    taken: list[int] = []
    found: list[int] = []
    source = random.Random(16807)
    tried = 0
    while len(found) < count:
        seed = first[tried] if tried < len(first) else source.randrange(1_000_000, PERIOD)
        tried += 1
        if tried > 200 * count + 100_000:
            raise Problem(f"no {count} seeds with streams {draws:,} draws apart were found: ask for fewer draws")
        if own := own_places(taken, seed, streams, draws):
            for it in own:
                taken.insert(bisect_left(taken, it), it)
            found.append(seed)
    return found


def own_places(taken: list[int], seed: int, streams: Sequence[int], draws: int) -> list[int]:
    """The places of a replication's streams; none where one of them comes near to another or to one that is taken."""
    own: list[int] = []
    for value in streams:
        at = place(begins(value, seed))
        if not is_free(taken, at, draws) or not is_free(sorted(own), at, draws):
            return []
        own.append(at)
    return own


def is_free(taken: list[int], at: int, draws: int) -> bool:
    """Whether no place that is taken lies within so many draws of this one, around the whole period."""
    if not taken:
        return True
    where = bisect_left(taken, at)
    after = taken[where] - at if where < len(taken) else taken[0] + PERIOD - at
    before = at - taken[where - 1] if where > 0 else at + PERIOD - taken[-1]
    return after >= draws and before >= draws


def main(words: list[str]) -> None:
    read = Words(words, "--draws --rmult", "--plain")
    if len(read.rest) != 1 or not read.rest[0].isdecimal() or not 1 <= int(read.rest[0]) <= 100_000:
        raise Problem("how many seeds? A number from 1 to 100,000 is wanted")
    draws = read.number("--draws", 100_000, 1, PERIOD)
    streams = PLAIN if "--plain" in read.flags else RMULT
    if "--rmult" in read.options:
        values = read.options["--rmult"].split(",")
        if not all(it == "" or it.isdecimal() and 1 <= int(it) <= PERIOD for it in values) or len(values) > 7:
            raise Problem("--rmult wants values from 1 to 2,147,483,646 with commas, seven at most")
        streams = tuple(int(it or at) for at, it in enumerate([*values, *[""] * 7][:7], 1))
    for seed in far_apart(int(read.rest[0]), draws, streams):
        print(seed)
