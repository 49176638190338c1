"""What bin/ has of a tree, for `./testkit` and for whoever has no toolchain: the program, a Maven repository with the jar, and PROVED-WITH.

PROVED-WITH says with which kit the program was proved, of which sources it was made, by one sum, and which compiler made the jar, and has
the sum of each file, so that `sha256sum -c PROVED-WITH` checks them.
"""

import hashlib
import os
import re
import subprocess
from pathlib import Path
from typing import Dict, List

import checked
import listener
from asking import Failed, Refused

PROGRAM = "testkit-x86_64-linux"
PROVED_WITH = "PROVED-WITH"
MAVEN = "maven"
"""The folder of bin/ that has the layout of a Maven repository, in which the jar of the listener for JUnit stands once."""


def shell(top: str, line: str) -> "subprocess.CompletedProcess[str]":
    """Runs a line of shell after `tools/sources.sh`."""
    return subprocess.run(["sh", "-c", f". tools/sources.sh; {line}"], cwd=top, stdout=subprocess.PIPE, text=True, check=False)


def read(path: str) -> bytes:
    """Returns the bytes of a file, or none where there is no file."""
    return Path(path).read_bytes() if os.path.exists(path) else b""


def built(top: str) -> bytes:
    """Returns the program that was built, where it is no older than its sources and runs."""
    path = f"{top}/{checked.PROGRAM}"
    if shell(top, f"is_new {checked.PROGRAM}").returncode:
        raise Refused(1, f"tools/keep_program: there is no {checked.PROGRAM} that is newer than its sources: ./check builds it\n".encode())
    # (to no words the program says that the command line is bad)
    ran = subprocess.run([path], stdin=subprocess.DEVNULL, stdout=subprocess.DEVNULL, stderr=subprocess.DEVNULL, check=False)
    if ran.returncode != 2:
        raise Failed(f"{checked.PROGRAM} ends with status {ran.returncode}, where it is given no words")
    return read(path)


def sum_of_sources(top: str) -> str:
    return shell(top, "sum_of_sources").stdout.strip()


def leave_sum(top: str, sources: str) -> None:
    """Leaves the sum beside the program, by which `./testkit` knows that it was built of these sources."""
    Path(f"{top}/{checked.PROGRAM}.sum").write_text(shell(top, f"sum_of_build {checked.PROGRAM} {sources}").stdout, encoding="ascii")


def sources_of(top: str) -> Dict[str, bytes]:
    """Returns the files of the work tree of which the jar is made."""
    names = [os.path.relpath(f"{at}/{name}", top) for at, _, found in os.walk(f"{top}/{listener.SOURCES}") for name in found]
    return {name: read(f"{top}/{name}") for name in [*names, "LICENSE", "VERSION", listener.POM]}


def in_maven(top: str, jar: bytes) -> Dict[str, bytes]:
    return {f"{MAVEN}/{name}": data for name, data in listener.in_maven(jar, sources_of(top)).items()}


def there(top: str) -> List[str]:
    """Returns the names of the files in bin/."""
    return [os.path.relpath(f"{at}/{name}", f"{top}/bin") for at, _, found in os.walk(f"{top}/bin") for name in found]


def proved_with(top: str, compiler: str, files: Dict[str, bytes]) -> bytes:
    kit = subprocess.run(["rt", "version"], stdin=subprocess.DEVNULL, stdout=subprocess.PIPE, text=True, check=True).stdout.splitlines()[0]
    sources = sum_of_sources(top)
    sums = "".join(f"{hashlib.sha256(data).hexdigest()}  {name}\n" for name, data in sorted(files.items()))
    return f"# kit {kit}\n# sources {sources}\n# {compiler}\n{sums}".encode()


def compared(name: str, data: bytes) -> bytes:
    """Returns what counts of a file: of PROVED-WITH not its first line, since another kit that builds the same bytes renews nothing."""
    return data.partition(b"\n")[2] if name == PROVED_WITH else data


def differing(top: str, compiler: str, jar: bytes) -> Dict[str, bytes]:
    """Returns what was built, with a jar that this compiler made, as far as bin/ has it otherwise, and no bytes of what bin/ has besides."""
    files = {PROGRAM: built(top), **in_maven(top, jar)}
    files[PROVED_WITH] = proved_with(top, compiler, files)
    changed = {name: data for name, data in files.items() if compared(name, read(f"{top}/bin/{name}")) != compared(name, data)}
    return {**changed, **{name: b"" for name in there(top) if name not in files}}


def renew(top: str) -> Dict[str, bytes]:
    """Writes the files of bin/ that differ, each once it is whole, removes what it has besides, and returns both."""
    if not listener.can_be_made():
        raise Failed(listener.MISSING)
    changed = differing(top, listener.compiler(), listener.make_jar(sources_of(top), built(top)))
    for name, data in changed.items():
        path = Path(f"{top}/bin/{name}")
        if not data:
            path.unlink()
            continue
        path.parent.mkdir(parents=True, exist_ok=True)
        whole = path.with_name(f".{path.name}")
        whole.write_bytes(data)
        os.chmod(whole, 0o755 if name == PROGRAM else 0o644)
        os.replace(whole, path)
    return changed


def faults(top: str) -> List[str]:
    """Says what is wrong with bin/. The jar is compared where the compiler that made it is here."""
    made_by = "".join(re.findall("^# (javac-.*)", read(f"{top}/bin/{PROVED_WITH}").decode(errors="replace"), re.MULTILINE))
    can_compare = listener.can_be_made() and listener.compiler() == made_by
    jars = [name for name in there(top) if re.search(r"/testkit-listener-[0-9.]*\.jar$", name)]
    kept = b"".join(read(f"{top}/bin/{name}") for name in jars)
    changed = differing(top, made_by, listener.make_jar(sources_of(top), built(top)) if can_compare else kept)
    return [f"bin/{name} is not what was built here" for name in changed]
