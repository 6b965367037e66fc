"""What all tools share: how they read their words, and how they end."""
import importlib
import importlib.util
import os
import subprocess
import sys


class Problem(Exception):
    """Input that a tool cannot work with, in one line: status 2."""


class Words:
    """The words of a command line: options, `--to DIR` or `--to=DIR`, flags, and the rest. `in_front` says that options
    stand in front of the rest alone, which may be another program's words."""

    def __init__(self, words: list[str], options: str = "", flags: str = "", in_front: bool = False):
        self.options: dict[str, str] = {}
        self.flags: set[str] = set()
        self.rest: list[str] = []
        known, lone = options.split(), flags.split()
        at = 0
        while at < len(words):
            word, at = words[at], at + 1
            if not word.startswith("--") and not (word[:1] == "-" and word[1:].isalpha()):
                self.rest.append(word)
                if in_front:
                    break
                continue
            if word == "--":
                break
            name, is_set, value = word.partition("=")
            if name in known:
                if not is_set:
                    if at == len(words):
                        raise Problem(f"{name} wants a word after it")
                    value, at = words[at], at + 1
                self.options[name] = value
            elif name in lone and not is_set:
                self.flags.add(name)
            else:
                raise Problem(f"no option {word}; --help shows them")
        self.rest += words[at:]

    def number(self, name: str, usual: int | None, least: int, most: int) -> int | None:
        """The whole number of an option, or the usual one."""
        if name not in self.options:
            return usual
        text = self.options[name]
        if not (text.isascii() and text.isdigit() and least <= int(text) <= most):
            raise Problem(f"{name} {text}: a whole number from {least} to {most} is wanted")
        return int(text)

    def level(self) -> float:
        """The level of the intervals, as --level 99 has it in per cent; 95 without it."""
        text = self.options.get("--level", "95")
        try:
            level = float(text)
        except ValueError:
            level = 0.0
        if not 50 <= level < 100:
            raise Problem(f"--level {text}: per cent from 50 to below 100 are wanted, as 95 or 99")
        return level / 100


def run(tool: str) -> None:
    """Runs `main` of a module of this package and ends the process: `--help` prints the module's docstring with status 0;
    bad input is one line on standard error and status 2; a reader that goes away, as `| head`, and an interrupt end it in
    silence, the interrupt also while the module is still being imported."""
    name = "tools/" + os.path.basename(sys.argv[0])
    words = sys.argv[1:]
    try:
        module = importlib.import_module(f"{__package__}.{tool}")
        if any(word in ("--help", "-h") for word in words):
            print(module.__doc__.strip())
            status = 0
        else:
            status = module.main(words) or 0
        sys.stdout.flush()
    except Problem as why:
        sys.stdout.flush()
        print(f"{name}: {why}", file=sys.stderr)
        status = 2
    except BrokenPipeError:
        # nobody reads any more: what is still to be written goes nowhere
        os.dup2(os.open(os.devnull, os.O_WRONLY), sys.stdout.fileno())
        status = 0
    except OSError as why:
        print(f"{name}: {why.filename or 'input or output'}: {why.strerror}", file=sys.stderr)
        status = 2
    except KeyboardInterrupt:
        status = 130
    sys.exit(status)


# The Debian package of each Python package that is not part of Python. Debian has no pyarrow.
DEBIAN = {
    "distributed": "python3-distributed", "matplotlib": "python3-matplotlib", "jinja2": "python3-jinja2",
    "tornado": "python3-tornado", "selenium": "python3-selenium", "pandas": "python3-pandas",
}
SYSTEM = "/usr/bin/python3"


def has(package: str, python: str | None = None) -> bool:
    """Whether a Python has a package: this one, or another one by its path."""
    if python is None:
        return importlib.util.find_spec(package) is not None
    command = [python, "-c", f"import sys, importlib.util as u; sys.exit(u.find_spec({package!r}) is None)"]
    return os.path.exists(python) and subprocess.run(command, capture_output=True).returncode == 0


def with_packages(*packages: str) -> None:
    """Sees to it that packages are there. Debian's belong to /usr/bin/python3, which need not be the Python that runs this:
    then the tool begins anew with that one."""
    missing = [package for package in packages if not has(package)]
    if not missing:
        return
    is_other = os.path.realpath(sys.executable) != os.path.realpath(SYSTEM) and "GPSSBENCH_PYTHON" not in os.environ
    if is_other and all(has(package, SYSTEM) for package in packages):
        sys.stdout.flush()
        os.execve(SYSTEM, [SYSTEM, *sys.argv], {**os.environ, "GPSSBENCH_PYTHON": SYSTEM})
    of_debian = " ".join(DEBIAN[package] for package in missing if package in DEBIAN)
    cure = f"python/install installs it, or `apt-get install {of_debian}`" if of_debian else f"`pip install {' '.join(missing)}`"
    raise Problem(f"{', '.join(missing)} is not here: {cure}")


def warn(text: str) -> None:
    """A line on standard error, in the tool's name."""
    print(f"tools/{os.path.basename(sys.argv[0])}: {text}", file=sys.stderr)


def lines_of(path: str) -> list[str]:
    """The lines of a text file, or of standard input for `-`."""
    if path == "-":
        return sys.stdin.buffer.read().decode("latin-1").replace("\r\n", "\n").split("\n")
    with open(path, encoding="latin-1", newline="") as file:
        return file.read().replace("\r\n", "\n").split("\n")
