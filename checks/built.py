#!/usr/bin/env python3
"""What the toolchain makes of the crates: the archive for C, the player, the code of each function.

    checks/built.py note       after `rt ci` has passed where no library stood in the crates' out/: says that what it left there is of the files as they stand
    checks/built.py archive    builds the archive where it is not of the files as they stand, and prints its path
    checks/built.py player     the same of the player

`rt ci` leaves its libraries in the crates' out/ with no stamp, so that `rt lib` would prove them all once more. Where they are noted, a crate above them
is checked and compiled over them, with the words that `rt ci` itself gives to `rattle`. Elsewhere `rt` builds what is missing, as where
libraries stood there before: `rt ci` puts those back over what it proved.
"""
import functools
import hashlib
import shutil
import subprocess
import sys
from pathlib import Path

ROOT = Path(__file__).resolve().parent.parent
LOG_LINES = 12


class NotBuilt(Exception):
    """What could not be built, and what was said."""


@functools.cache
def kit():
    """The folder of the toolchain."""
    return Path(subprocess.run(["rt", "doc"], capture_output=True, text=True, check=True).stdout.strip()).parent


@functools.cache
def crates(root=ROOT):
    """The crates that crates.txt lists: whether it is a static library, and the libraries that it is built on."""
    lines = (line.split("#")[0] for line in (root / "crates.txt").read_text().split("\n"))
    rows = [line.split(":") for line in lines if ":" in line]
    return {head.split()[0]: ("staticlib" in head.split()[1:], below.split()) for head, below in rows}


def below(crate):
    """The repository's libraries below a crate, each after those that it uses."""
    found = []
    for one in crates()[crate][1]:
        if one in crates():
            found += [it for it in [*below(one), one] if it not in found]
    return found


def sum_of(files):
    """A sum of the names and the texts of files."""
    total = hashlib.sha256()
    for file in sorted(files):
        total.update(repr((str(file.relative_to(ROOT)), file.read_bytes())).encode())
    return total.hexdigest()


def sources(names):
    """A sum of all that these crates are made from."""
    files = [file for name in names for part in ("src", "specs", "proofs") for file in (ROOT / "crates" / name / part).rglob("*") if file.is_file()]
    version = subprocess.run(["rt", "version"], capture_output=True, text=True, check=True).stdout
    return version + sum_of([ROOT / "crates.txt", *files])


def rlib(crate):
    """The folder of a library as it is built."""
    return ROOT / "crates" / crate / "out/rlib" / f"{crate}.rlib"


def made():
    """A sum of the libraries in the crates' out/: the file `format` of each has the sum of its others."""
    return sum_of([rlib(name) / "format" for name in crates() if (rlib(name) / "format").is_file()])


NOTE = ROOT / "out/passed"


@functools.cache
def noted():
    """Whether the libraries in the crates' out/ are those that `rt ci` proved of the files as they stand."""
    return NOTE.is_file() and NOTE.read_text() == sources(crates()) + made()


def words(crate):
    """The words that tell `rattle` what a crate is, over the libraries in the crates' out/."""
    is_static, uses = crates()[crate]
    is_program = (ROOT / "crates" / crate / "src/main.rt").is_file()
    found = ["--crate-name", crate, "src/main.rt" if is_program else "src/lib.rt"]
    for name in ["std", *(it for it in uses if it not in crates())]:
        found += ["--extern", f"{name}={kit()}/rlibs/{name}.rlib"]
    found += ["-L", f"dependency={kit()}/rlibs"]
    for name in uses:
        found += ["--extern", f"{name}={rlib(name)}"] if name in crates() else []
    for name in below(crate):
        found += ["-L", f"dependency={rlib(name).parent}"]
    found += ["--antt-project", f"{kit()}/rattle/logic/antt-project.json", "--logic-built", f"{kit()}/logic_built", "--links", f"{crate}="]
    return found + (["--crate-type", "staticlib"] if is_static else [])


def tell(command, folder):
    """Runs a command that builds; what it says is told where it fails."""
    run = subprocess.run(command, cwd=folder, stdin=subprocess.DEVNULL, stdout=subprocess.PIPE, stderr=subprocess.STDOUT, text=True, errors="replace")
    return run.returncode, "\n".join(run.stdout.strip().split("\n")[-LOG_LINES:])


FAILED = {}


def build(command, folder):
    """Runs a command that has to build something; one that failed is not run again."""
    words = (*map(str, command), str(folder))
    if words not in FAILED:
        status, said = tell(command, folder)
        if not status:
            return
        FAILED[words] = f"{' '.join(words[:2])} in {folder} ended with {status}\n{said}"
    raise NotBuilt(FAILED[words])


def is_of(file, names):
    """Whether a file that was made is of the files as they stand."""
    stamp = file.with_name(file.name + ".of")
    return file.is_file() and stamp.is_file() and stamp.read_text() == sources(names)


def stamped(file, names):
    """Notes that a file that was made is of the files as they stand."""
    file.with_name(file.name + ".of").write_text(sources(names))
    return file


def archive():
    """The archive for C, built of the files as they stand."""
    folder = ROOT / "crates/capi_c"
    file, names = folder / "out/libcapi.a", [*below("capi_c"), "capi_c"]
    if is_of(file, names):
        return file
    (folder / "out").mkdir(exist_ok=True)
    if noted():
        build([kit() / "bin/rattle", "build", *words("capi_c"), "--toolchain", kit() / "toolchain", "--backend", "llvm", "-o", "out/libcapi_c.a"], folder)
    else:
        build(["rt", "lib"], folder)
    shutil.copyfile(folder / "out/libcapi_c.a", file)
    return stamped(file, names)


def player():
    """The player, built of the files as they stand."""
    folder = ROOT / "crates/breatharena"
    file, names = folder / "out/breatharena", [*below("breatharena"), "breatharena"]
    if not is_of(file, names):
        # with no input it writes nothing
        build(["rt", "run"], folder)
        stamped(file, names)
    return file


def library(crate):
    """A library as it is proved and built of the files as they stand."""
    if not noted():
        build(["rt", "lib"], ROOT / "crates" / crate)
    return rlib(crate)


def generated(crate, to):
    """Has the functions of a crate of the repository written as the prover reads them."""
    folder = ROOT / "crates" / crate
    command = [kit() / "bin/rattle", "check", *words(crate)] if noted() else ["rt", "check"]
    written(tell([*command, "--generated", to], folder))


def generated_apart(folder, to):
    """The same of a crate that stands for itself, and need not be proved."""
    written(tell(["rt", "check", "--generated", to], folder))


def written(told):
    """The last line says how many modules were written, also where something is not proved."""
    if not told[1].split("\n")[-1].startswith("generated="):
        raise NotBuilt(f"--generated ended with {told[0]}\n{told[1]}")


def note():
    """Says that `rt ci` has passed on the files as they stand, and left what it proved: only where no library stood in the crates' out/ before it."""
    NOTE.parent.mkdir(exist_ok=True)
    NOTE.write_text(sources(crates()) + made())
    program = ROOT / "crates/breatharena/out/breatharena"
    if program.is_file():
        stamped(program, [*below("breatharena"), "breatharena"])


def main():
    verb = sys.argv[1] if len(sys.argv) == 2 else ""
    if verb == "note":
        note()
    elif verb in ("archive", "player"):
        try:
            print(archive() if verb == "archive" else player())
        except NotBuilt as error:
            print(error, file=sys.stderr)
            return 1
    else:
        print(__doc__, file=sys.stderr)
        return 2
    return 0


if __name__ == "__main__":
    sys.exit(main())
