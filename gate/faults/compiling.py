"""Compiles C: a library that is put before the C library, and the program `requests.c`, which calls it."""

import os
import shutil
import subprocess
import tempfile
import unittest

HERE = os.path.dirname(os.path.realpath(__file__))


def compiler() -> str:
    """The C compiler of the machine, or else that of the toolchain."""
    found = shutil.which("cc")
    if found:
        return found
    page = subprocess.run(["rt", "doc"], stdout=subprocess.PIPE, check=True, text=True).stdout.strip()
    return os.path.join(os.path.dirname(page), "toolchain", "bin", "clang")


class WithLibrary(unittest.TestCase):
    """Tests with `library`, compiled of `SOURCE`, which `LD_PRELOAD` can name, and with the program `requests`."""

    SOURCE = ""

    @classmethod
    def setUpClass(cls) -> None:
        super().setUpClass()
        room = tempfile.TemporaryDirectory(prefix="counted-")
        cls.addClassCleanup(room.cleanup)
        cls.library, cls.requests = f"{room.name}/library.so", f"{room.name}/requests"
        subprocess.run([compiler(), "-shared", "-fPIC", "-O", cls.SOURCE, "-o", cls.library], check=True)
        subprocess.run([compiler(), "-O", "-pthread", f"{HERE}/requests.c", "-o", cls.requests], check=True)
