"""Prints a FUNCTION for times at random.

    tools/draw expo|normal|lognormal|gamma|weibull|triangle [--stream 2] [--name NAME] [--points 32] [..]
    tools/draw --data FILE.csv [--column TITLE] [--stream 2] [--name NAME]

The value of expo, normal, lognormal, gamma and weibull is a multiple of the mean, for `ADVANCE 480,FN$Expo`. Besides:

    normal, lognormal   --deviation 0.2     the standard deviation, as a share of the mean
    gamma, weibull      --shape 2           the shape (1 is the exponential)
    triangle            --low 3 --mode 5 --high 12      in ticks, for `ADVANCE FN$Triangle`

--data takes the numbers of a file, one a line, or a column of a CSV file by its title; its value is in ticks. The
FUNCTION goes along straight lines between its points; the comment in front of it says which mean and standard deviation
that makes, and what the distribution itself has."""
import csv
import math
import re
from collections.abc import Callable
from statistics import NormalDist, fmean, pstdev

from .command import Problem, Words
from .statements import is_name

Pairs = list[tuple[float, float]]


def shares(points: int) -> list[float]:
    """The shares at which a distribution is read: evenly, and more closely in both tails."""
    tails = [0.0005, 0.002, 0.005, 0.01, 0.02, 0.03]
    inner = max(2, points - 2 * len(tails) - 2)
    middle = [0.05 + 0.9 * at / (inner - 1) for at in range(inner)]
    return [0.0, *tails, *middle, *(1 - it for it in reversed(tails)), 1.0]


def gamma_share(shape: float, x: float) -> float:
    """The regularized lower incomplete gamma function."""
    if x <= 0:
        return 0.0
    front = math.exp(shape * math.log(x) - x - math.lgamma(shape))
    if x < shape + 1:
        term = total = 1 / shape
        for at in range(1, 10_000):
            term *= x / (shape + at)
            total += term
            if term < total * 1e-15:
                break
        return total * front
    b = x + 1 - shape
    c, d = 1e300, 1 / b
    value = d
    for at in range(1, 10_000):
        step = -at * (at - shape)
        b += 2
        d = 1 / (step * d + b)
        c = b + step / c
        value *= d * c
        if abs(d * c - 1) < 1e-15:
            break
    return 1 - front * value


def inverse(share_below: Callable[[float], float], share: float, high: float = 1.0) -> float:
    """Where a distribution has a share below."""
    low = 0.0
    while share_below(high) < share:
        high *= 2
    for _ in range(200):
        middle = (low + high) / 2
        low, high = (middle, high) if share_below(middle) < share else (low, middle)
    return (low + high) / 2


def quantile(name: str, read: Words) -> tuple[Callable[[float], float], float, float]:
    """The quantiles of a distribution, with its mean and standard deviation."""
    def real(option: str, usual: float | None, least: float) -> float:
        text = read.options.get(option)
        if text is None and usual is not None:
            return usual
        if text is None or not re.fullmatch(r"\d+(\.\d+)?|\.\d+", text) or float(text) < least:
            raise Problem(f"{name} wants {option}, a number of {least:g} or more")
        return float(text)

    if name == "expo":
        return lambda share: -math.log1p(-share), 1.0, 1.0
    if name == "normal":
        deviation = real("--deviation", 0.2, 0)
        if deviation > 0.25:
            raise Problem("--deviation above 0.25 makes times below 0: take lognormal or gamma")
        return lambda share: max(0.0, 1 + deviation * NormalDist().inv_cdf(share)), 1.0, deviation
    if name == "lognormal":
        deviation = real("--deviation", 0.5, 0.001)
        spread = math.sqrt(math.log1p(deviation**2))
        return lambda share: math.exp(spread * NormalDist().inv_cdf(share) - spread**2 / 2), 1.0, deviation
    if name == "gamma":
        shape = real("--shape", None, 0.1)
        return lambda share: inverse(lambda x: gamma_share(shape, x), share, shape) / shape, 1.0, shape**-0.5
    if name == "weibull":
        shape = real("--shape", None, 0.1)
        mean = math.gamma(1 + 1 / shape)
        deviation = math.sqrt(math.gamma(1 + 2 / shape) / mean**2 - 1)
        return lambda share: (-math.log1p(-share)) ** (1 / shape) / mean, 1.0, deviation
    low, mode, high = (real(option, None, 0) for option in ("--low", "--mode", "--high"))
    if not low <= mode <= high or low == high:
        raise Problem("--low is at most --mode, that at most --high, and --low below --high")
    turn = (mode - low) / (high - low)

    def of_triangle(share: float) -> float:
        if share <= turn:
            return low + math.sqrt(share * (high - low) * (mode - low))
        return high - math.sqrt((1 - share) * (high - low) * (high - mode))

    square = low * low + mode * mode + high * high - low * mode - low * high - mode * high
    return of_triangle, (low + mode + high) / 3, math.sqrt(square / 18)


def moments(pairs: Pairs) -> tuple[float, float]:
    """The mean and the standard deviation of what a FUNCTION draws along its straight lines."""
    parts = list(zip(pairs, pairs[1:]))
    mean = sum((x2 - x1) * (y1 + y2) / 2 for (x1, y1), (x2, y2) in parts)
    square = sum((x2 - x1) * (y1 * y1 + y1 * y2 + y2 * y2) / 3 for (x1, y1), (x2, y2) in parts)
    return mean, math.sqrt(max(0.0, square - mean * mean))


def of_distribution(name: str, read: Words) -> tuple[Pairs, float, float]:
    """The points of a distribution, shifted by one factor so that the mean is right, and its own mean and deviation."""
    quantiles, mean, deviation = quantile(name, read)
    listed = shares(read.number("--points", 32, 24, 200))
    last = 0.9998 if name != "triangle" else 1.0
    first = 0.0002 if name in ("normal", "lognormal") else 0.0
    pairs = [(share, quantiles(min(last, max(first, share)))) for share in listed]
    if name != "triangle":
        factor = mean / moments(pairs)[0]
        pairs = [(x, y * factor) for x, y in pairs]
    return pairs, mean, deviation


def time_of(path: str, text: str) -> float:
    try:
        return float(text)
    except ValueError:
        raise Problem(f"{path}: {text.strip()[:40]!r} is no number") from None


def of_data(path: str, column: str | None) -> tuple[Pairs, float, float]:
    """The points of measured times: the greatest and the least, and shares of them between, at most 100."""
    with open(path, newline="", encoding="utf-8", errors="replace") as file:
        rows = list(csv.reader(file))
    if column is not None:
        if not rows or column not in rows[0]:
            raise Problem(f"{path} has no column {column}{', but ' + ', '.join(rows[0]) if rows else ''}")
        texts = [row[rows[0].index(column)] for row in rows[1:] if len(row) > rows[0].index(column)]
    else:
        texts = [row[0] for row in rows if row]
    values = sorted(time_of(path, text) for text in texts if text.strip())
    if len(values) < 2 or not all(0 <= it <= 1_000_000_000 for it in values):
        raise Problem(f"{path}: two numbers or more are wanted, from 0 to 1,000,000,000")
    steps = min(100, len(values) - 1)
    pairs = []
    for at in range(steps + 1):
        exact = at * (len(values) - 1) / steps
        low = int(exact)
        high = min(low + 1, len(values) - 1)
        pairs.append((at / steps, values[low] + (exact - low) * (values[high] - values[low])))
    return pairs, fmean(values), pstdev(values)


def digits(value: float, decimals: int) -> str:
    text = f"{value:.{decimals}f}".rstrip("0").rstrip(".") if decimals else f"{value:.0f}"
    return text.removeprefix("0") if text.startswith("0.") else text or "0"


def function(name: str, stream: int, pairs: Pairs) -> list[str]:
    """The lines of a FUNCTION of type C."""
    listed, seen = [], set()
    for x, y in pairs:
        share = digits(x, 6)
        if share not in seen:
            listed.append(f"{share},{digits(y, 4)}")
            seen.add(share)
    lines = [f"{name:<7} FUNCTION RN{stream},C{len(listed)}"]
    row = ""
    for pair in listed:
        if row and len(row) + len(pair) + 1 > 90:
            lines.append(row)
            row = ""
        row = f"{row}/{pair}" if row else pair
    return [*lines, row]


NAMES = ("expo", "normal", "lognormal", "gamma", "weibull", "triangle")


def main(words: list[str]) -> None:
    read = Words(words, "--stream --name --points --deviation --shape --low --mode --high --data --column")
    stream = read.number("--stream", 2, 1, 7)
    path = read.options.get("--data")
    if path is None and (len(read.rest) != 1 or read.rest[0] not in NAMES) or path is not None and read.rest:
        raise Problem(f"one of {', '.join(NAMES)} is wanted, or --data FILE.csv; --help shows how")
    name = read.options.get("--name", "Times" if path else read.rest[0].capitalize())
    if not is_name(name.upper()):
        raise Problem(f"--name {name}: a name begins with a letter, has letters, digits and `_`, and is no verb or class")
    pairs, mean, deviation = of_data(path, read.options.get("--column")) if path else of_distribution(read.rest[0], read)
    made = moments([(round(x, 6), round(y, 4)) for x, y in pairs])
    what = f"{path}, {len(pairs)} points" if path else read.rest[0]
    print(f"* {what}: mean {made[0]:.3f}, deviation {made[1]:.3f} (itself {mean:.3f} and {deviation:.3f})")
    print("\n".join(function(name, stream, pairs)))
