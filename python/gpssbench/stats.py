"""Means with their intervals, by Student's t for any number of values and any level."""
import math
from collections.abc import Iterable, Sequence
from dataclasses import dataclass
from functools import lru_cache


def fixed(value: float, decimals: int = 3) -> str:
    """A figure with its decimals, and no minus in front of a zero."""
    text = f"{value:.{decimals}f}"
    return text.removeprefix("-") if float(text) == 0 else text


def beta_fraction(a: float, b: float, x: float) -> float:
    """The continued fraction of the incomplete beta function, by Lentz's method."""
    tiny = 1e-300
    c, d = 1.0, 1 - (a + b) * x / (a + 1)
    d = 1 / (d if abs(d) > tiny else tiny)
    value = d
    for m in range(1, 1000):
        for term in (
            m * (b - m) * x / ((a + 2 * m - 1) * (a + 2 * m)),
            -(a + m) * (a + b + m) * x / ((a + 2 * m) * (a + 2 * m + 1)),
        ):
            d = 1 + term * d
            d = 1 / (d if abs(d) > tiny else tiny)
            c = 1 + term / c
            c = c if abs(c) > tiny else tiny
            value *= c * d
        if abs(c * d - 1) < 1e-15:
            break
    return value


def beta_share(a: float, b: float, x: float) -> float:
    """The regularized incomplete beta function I_x(a, b)."""
    if x <= 0 or x >= 1:
        return float(x >= 1)
    front = math.exp(math.lgamma(a + b) - math.lgamma(a) - math.lgamma(b) + a * math.log(x) + b * math.log1p(-x))
    if x < (a + 1) / (a + b + 2):
        return front * beta_fraction(a, b, x) / a
    return 1 - front * beta_fraction(b, a, 1 - x) / b


@lru_cache(maxsize=None)
def student(freedom: int, level: float = 0.95) -> float:
    """The two-sided point of Student's t: with this many degrees of freedom a share `level` lies within plus or minus
    what it returns."""
    if freedom < 1 or not 0 < level < 1:
        raise ValueError("Student's t has 1 degree of freedom or more, and a level between 0 and 1")
    outside = lambda t: beta_share(freedom / 2, 0.5, freedom / (freedom + t * t))
    low, high = 0.0, 2.0
    while outside(high) > 1 - level:
        high *= 2
    for _ in range(200):
        middle = (low + high) / 2
        if middle in (low, high):
            break
        low, high = (middle, high) if outside(middle) > 1 - level else (low, middle)
    return (low + high) / 2


@dataclass(frozen=True)
class Estimate:
    """What some values say of their mean: how many they are, of how many, the mean, and the half-width of its interval,
    which two values at the least have."""

    n: int
    of: int
    mean: float
    half: float | None
    least: float
    greatest: float

    @property
    def interval(self) -> tuple[float, float] | None:
        return None if self.half is None else (self.mean - self.half, self.mean + self.half)


def estimate(values: Iterable[float | None], level: float = 0.95, comparisons: int = 1) -> Estimate | None:
    """The mean of the values that are there, with its half-width; None where there is none. With several comparisons
    the level holds for all of them together (Bonferroni)."""
    listed = list(values)
    there = [value for value in listed if value is not None]
    if not there:
        return None
    mean, half = math.fsum(there) / len(there), None
    if len(there) > 1:
        spread = math.sqrt(math.fsum((value - mean) ** 2 for value in there) / (len(there) - 1))
        half = student(len(there) - 1, 1 - (1 - level) / comparisons) * spread / math.sqrt(len(there))
    return Estimate(len(there), len(listed), mean, half, min(there), max(there))


def differences(base: dict, other: dict) -> list[float | None]:
    """The paired differences of `other` less `base`, over the runs that both have; None where one has no figure."""
    return [
        None if base[run] is None or other[run] is None else other[run] - base[run] for run in base if run in other
    ]


def moving_average(values: Sequence[float], window: int) -> list[float]:
    """Welch's moving average: each value with up to `window` others on either side, fewer near the front."""
    found = []
    for at in range(len(values) - window):
        reach = min(at, window)
        part = values[at - reach : at + reach + 1]
        found.append(math.fsum(part) / len(part))
    return found


def mser(values: Sequence[float], batch: int = 5) -> int:
    """How many values at the front to cut off, by MSER-5: batches of five, and the cut, in the first half, after which
    the standard error of what is left is the least."""
    means = [math.fsum(values[at : at + batch]) / batch for at in range(0, len(values) - batch + 1, batch)]
    best, cut = math.inf, 0
    total, squares, count = 0.0, 0.0, 0
    errors = []
    for value in reversed(means):
        total, squares, count = total + value, squares + value * value, count + 1
        errors.append(max(0.0, squares - total * total / count) / (count * count))
    for at in range(len(means) // 2 + 1):
        error = errors[len(means) - 1 - at] if at < len(means) else math.inf
        if error < best - 1e-12:
            best, cut = error, at
    return cut * batch
