"""The program: where it is, a session from its lines at once, and a session that stays open."""
import os
import shutil
import subprocess
from dataclasses import dataclass

from .answers import BrokenOff, next_answer
from .command import Problem

ROOT = os.path.dirname(os.path.dirname(os.path.dirname(os.path.realpath(__file__))))


def program() -> str:
    """Where the program is: $GPSSBENCH, the one that `dev/unproved --keep gpssbench` or the gate built in the clone,
    or the one in a folder of PATH."""
    built = os.path.join(ROOT, "crates", "gw_main", "out", "gw_main")
    for path in (os.environ.get("GPSSBENCH"), os.path.join(ROOT, "gpssbench"), built, shutil.which("gpssbench")):
        if path and os.path.isfile(path):
            return os.path.abspath(path)
    raise Problem("no program: `dev/unproved --keep gpssbench` in the repository's root builds one")


@dataclass
class Model:
    """A model and where it comes from: the file that the program reads, or the text that goes to standard input."""

    path: str
    text: bytes

    @classmethod
    def read(cls, path: str, text: bytes | None = None) -> "Model":
        """The model of a file; `-` has its text from standard input, which the caller has read."""
        if path == "-":
            return cls("-", (text or b"").rstrip(b"\n") + b"\n")
        try:
            with open(path, "rb") as file:
                return cls(path, file.read())
        except OSError:
            return cls(path, b"")  # the program says what is wrong with it

    @classmethod
    def of_file(cls, path: str) -> "Model":
        """The model of a file that must be there."""
        with open(path, "rb") as file:
            return cls(path, file.read())

    def words(self) -> list[str]:
        return [] if self.path == "-" else [self.path]

    def front(self) -> bytes:
        """What stands in front of the script on standard input."""
        return self.text + b"end\n" if self.path == "-" else b""

    def lines(self) -> list[str]:
        return self.text.decode("latin-1").replace("\r\n", "\n").split("\n")


def ran(model: Model, words: list[str], script: list[str]) -> subprocess.CompletedProcess:
    """A whole session, from its script's lines."""
    text = "\n".join(script) + ("\n" if script else "")
    given = model.front() + text.encode("latin-1")
    return subprocess.run([program(), *model.words(), *words], input=given, capture_output=True)


class Ended(Exception):
    """The session is at its end: what standard error said, and the status."""

    def __init__(self, told: str, status: int):
        super().__init__(told or f"the program ended with status {status}")
        self.told, self.status = told, status


class Session:
    """A session that stays open: each line of a script goes in, and its answer comes back."""

    def __init__(self, model: Model, words: list[str] = ()):
        pipe = subprocess.PIPE
        command = [program(), *model.words(), *words]
        self.process = subprocess.Popen(command, stdin=pipe, stdout=pipe, stderr=pipe)
        self.end: Ended | None = None
        if model.front():
            self.give(model.front())

    def give(self, text: bytes) -> None:
        try:
            self.process.stdin.write(text)
            self.process.stdin.flush()
        except (BrokenPipeError, ValueError):
            raise self.ended() from None

    def ask(self, line: str) -> tuple[str, list]:
        """The answer to a script's line, which is not blank."""
        if self.end:
            raise self.end
        if not line.strip(" \t") or "\n" in line:
            raise ValueError("a script's line is one line, and not blank")
        self.give(line.encode("latin-1") + b"\n")
        try:
            answer = next_answer(self.process.stdout)
        except BrokenOff:
            raise self.ended() from None
        if answer is None:
            raise self.ended()
        return answer

    def ended(self) -> Ended:
        """What the program said as it ended."""
        if self.end is None:
            try:
                self.process.stdin.close()
            except (BrokenPipeError, ValueError):
                pass
            told = self.process.stderr.read().decode("latin-1").strip("\n")
            self.end = Ended(told, self.process.wait())
            self.process.stdout.close()
            self.process.stderr.close()
        return self.end

    def close(self) -> None:
        """Ends the session; a program that is still simulating is stopped."""
        if self.process.poll() is None:
            self.process.terminate()
        for stream in (self.process.stdin, self.process.stdout, self.process.stderr):
            try:
                stream.close()
            except BrokenPipeError:
                pass
        self.process.wait()
        self.end = self.end or Ended("the session was closed", self.process.returncode)

    def __enter__(self) -> "Session":
        return self

    def __exit__(self, *_) -> None:
        self.close()
