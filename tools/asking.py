"""How the scripts of tools/ ask the program about a record, and end."""

import argparse
import contextlib
import os
import subprocess
import sys
from typing import BinaryIO, Callable, Sequence, Tuple

TOP = os.path.dirname(os.path.dirname(os.path.realpath(__file__)))
PROGRAM = os.environ.get("PROGRAM", f"{TOP}/testkit")


class Failed(Exception):
    """The script can't do its work."""


class Refused(Exception):
    """What was asked for is refused: the status, and the line on standard error."""


class Words(argparse.ArgumentParser):
    """The words of a script with this name and this docstring; wrong ones are a fault of the script."""

    def __init__(self, name: str, text: str) -> None:
        super().__init__(prog=name, description=text, formatter_class=argparse.RawDescriptionHelpFormatter)

    def error(self, message: str) -> None:
        raise Failed(f"{message}; {self.format_usage()}")


def call(file: BinaryIO, *words: bytes) -> "subprocess.CompletedProcess[bytes]":
    """Calls the program with a file as its input; a signal that ends it is a fault of the script."""
    file.seek(0)
    ran = subprocess.run([PROGRAM, *words], stdin=file, stdout=subprocess.PIPE, stderr=subprocess.PIPE)
    if ran.returncode < 0:
        raise Failed(f"{PROGRAM} was stopped by signal {-ran.returncode}")
    return ran


def ask(file: BinaryIO, *words: bytes) -> Tuple[int, bytes]:
    """Asks a question about the record in a file; answers the status, 0 or 1, and what was written."""
    ran = call(file, b"ask", *words)
    if ran.returncode > 1:
        raise Refused(ran.returncode, ran.stderr)
    return ran.returncode, ran.stdout


def say(text: bytes) -> None:
    """Writes on standard error, where that is open and takes it; the status stays what it is."""
    if sys.stderr:
        with contextlib.suppress(OSError):
            os.write(sys.stderr.fileno(), text)


def run_script(name: str, main: Callable[[Sequence[str]], int]) -> None:
    """Ends with the status of `main`, with the line and the status of a refusal, and with 70 and a line where the script fails."""
    try:
        sys.exit(main(sys.argv[1:]))
    except KeyboardInterrupt:
        sys.exit(130)
    except Refused as fault:
        status, line = fault.args
        say(line)
        sys.exit(status)
    except Exception as error:
        say(f"{name}: {' '.join(str(error).split()) or type(error).__name__}\n".encode(errors="backslashreplace"))
        with contextlib.suppress(OSError, AttributeError):
            sys.stdout.flush()
        # (what can't be written is not tried once more at the end of Python)
        os._exit(70)
