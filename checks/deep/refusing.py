"""Runs a program with some of what it asks of the system refused, by checks/deep/refuse.c."""

import os
import shutil
import subprocess
import sys
import tempfile
from concurrent.futures import ThreadPoolExecutor
from pathlib import Path

sys.path.insert(0, str(Path(__file__).resolve().parents[1] / "gate"))
from rules import SECONDS, Fault

SOURCE = Path(__file__).with_name("refuse.c")


class Run:
    """How a run ended: status, output, error output, and what was refused in it, as letters of checks/deep/refuse.c."""

    def __init__(self, status, out, err, told):
        self.status = status
        self.out = out
        self.err = err
        self.told = told

    def __str__(self):
        return f"status {self.status}, output {self.out!r}, error output {self.err!r}"


class Refusing:
    """A program with the library that refuses, which is compiled into a temporary folder."""

    def __init__(self, program):
        self.program = program
        self.folder = tempfile.TemporaryDirectory()
        self.library = Path(self.folder.name) / "refuse.so"
        words = [compiler(), "-O1", "-shared", "-fPIC", "-o", self.library, SOURCE]
        done = subprocess.run(words, capture_output=True, text=True)
        if done.returncode:
            raise Fault(f"{SOURCE.name} isn't compiled: {done.stderr}")

    def run(self, words, text, **asked):
        """Runs the program with these words on a text. What is asked is a request of checks/deep/refuse.c, as
        refuse_read=3."""
        told, telling = os.pipe()
        environment = {name.upper(): str(value) for name, value in asked.items()}
        environment.update(LD_PRELOAD=str(self.library), TOLD=str(telling))
        try:
            done = subprocess.run(
                [self.program, *words],
                input=text.encode(),
                capture_output=True,
                timeout=SECONDS,
                env=environment,
                pass_fds=[telling],
            )
        finally:
            os.close(telling)
            with open(told, "rb") as letters:
                refused = letters.read().decode()
        return Run(done.returncode, done.stdout.decode("ascii"), done.stderr.decode("ascii"), refused)

    def in_turn(self, words, text, numbers, **asked):
        """The runs in which the request of each number is refused: with its number, up to the first without a refusal,
        which comes last. `asked` names the kind, as refuse_read=True, and what else is asked. Several run at a time.
        """
        [kind] = [name for name, value in asked.items() if value is True]
        numbers = iter(numbers)
        with ThreadPoolExecutor(os.cpu_count()) as pool:
            while True:
                some = [next(numbers) for _ in range(4 * os.cpu_count())]
                runs = pool.map(lambda number: self.run(words, text, **{**asked, kind: number}), some)
                for number, run in zip(some, list(runs)):
                    yield number, run
                    if not run.told:
                        return


def compiler():
    """A C compiler: the one that CC names, or cc, gcc or clang; None where none of them is there."""
    names = [os.environ["CC"]] if "CC" in os.environ else ["cc", "gcc", "clang"]
    return next(filter(None, map(shutil.which, names)), None)
