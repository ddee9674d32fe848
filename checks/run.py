"""Our own checks, after `rt ci`. Each prints a line; the last line is 'N passed, M failed'."""
import functools
import itertools
import re
import subprocess
import sys
import tempfile
import threading
from concurrent.futures import ThreadPoolExecutor
from pathlib import Path

sys.dont_write_bytecode = True
ROOT = Path(__file__).resolve().parent.parent
sys.path[:0] = [str(ROOT / "checks"), str(ROOT / "tests")]

import accesses  # noqa: E402
import built  # noqa: E402
import claims  # noqa: E402
import counts  # noqa: E402
import mir  # noqa: E402
import needed  # noqa: E402
import scripts  # noqa: E402


# what the commands of the check that a thread makes said last
NOTES = threading.local()


def claims_hold():
    """docs/CLAIMS.md names only what exists."""
    return claims.faults((ROOT / "docs/CLAIMS.md").read_text(), ROOT)


def claims_check_catches():
    """The check of claims refuses a wrong name, a wrong file, a row with no name and an empty page, and takes a right row."""
    with tempfile.TemporaryDirectory() as folder:
        file = Path(folder) / "crates/a/proofs/A.antt"
        file.parent.mkdir(parents=True)
        file.write_text("pub right : A\nright = a\n\nprivate : A\nprivate = a\n")
        code = Path(folder) / "crates/a/src/lib.rt"
        code.parent.mkdir(parents=True)
        code.write_text("pub fn get() -> u64\n    ensures ends-within { x }\n{\n    0\n}\n")
        script = Path(folder) / "checks/b.py"
        script.parent.mkdir()
        script.write_text("def looks():\n    return other()\n")
        row = "| said | `{}` | `{}` |"
        good = [row.format("right", "crates/a/proofs/A.antt"), row.format("ends-within", "crates/a/src/lib.rt"), row.format("get", "crates/a/src/lib.rt"), row.format("looks", "checks/b.py")]
        bad = [
            row.format("wrong", "crates/a/proofs/A.antt"),
            row.format("private", "crates/a/proofs/A.antt"),
            row.format("right", "crates/a/proofs/B.antt"),
            row.format("right", "crates/a/src/lib.rt"),
            row.format("other", "checks/b.py"),
            "| said | no name | `crates/a/proofs/A.antt` |",
            "no table here",
        ]
        wrong = [f"took: {text}" for text in bad if not claims.faults(text, folder)]
        wrong += [f"refused: {text}" for text in good if claims.faults(text, folder)]
        return wrong


def files_of(suffix):
    """The files of a kind of all crates, but for what the toolchain made."""
    return [file for part in ("src", "specs", "proofs") for file in sorted(ROOT.glob(f"crates/*/{part}/**/*.{suffix}"))]


def layout_kept():
    """Every file of Rattle and antt is in the formatter's layout."""
    wrong = unlaid([*files_of("rt"), *files_of("antt")])
    with tempfile.TemporaryDirectory() as folder:
        for text in ("pub fn one() -> u64 {\n        1\n}\n", "pub fn one() -> u64 { 1 }\n\n\n\npub fn two() -> u64 {\n    2\n}\n"):
            file = Path(folder) / "lib.rt"
            file.write_text(text)
            wrong += [] if unlaid([file]) else [f"not seen: {text}"]
    return wrong


def unlaid(files):
    """What the formatter says of files that are not in its layout."""
    run = subprocess.run([built.kit() / "bin/rattle", "fmt", "--check", *files], cwd=ROOT, capture_output=True, text=True)
    return [] if run.returncode == 0 else (run.stdout + run.stderr).strip().split("\n")[:8]


def has_hole(line):
    """Whether a line of antt has a hole, named or not, or an axiom."""
    code = line.split("--")[0]
    return "{!" in code or any(word.startswith("?") or word == "axiom" for word in re.split(r"[\s(){}\[\],;]+", code))


def no_holes():
    """No file of antt has a hole or an axiom of its own."""
    wrong = [f"not seen: {line}" for line in ("a = ?", "a = ?h", "a = f (?h)", "a = f {?}", "a = {! x !}", "axiom a : A") if not has_hole(line)]
    wrong += [f"seen: {line}" for line in ("a = head? l", "a = b -- why?", "axioms = a") if has_hole(line)]
    for file in files_of("antt"):
        lines = enumerate(file.read_text().split("\n"), 1)
        wrong += [f"{file.relative_to(ROOT)}:{number}: {line.strip()}" for number, line in lines if has_hole(line)]
    return wrong


def crates():
    """The crates that crates.txt lists, each with those that it is built on."""
    return {name: below for name, (_, below) in built.crates().items()}


@functools.cache
def code(crate):
    """The functions of a crate as they are proved and compiled, each with its body."""
    is_static = built.crates()[crate][0]
    if is_static or (ROOT / "crates" / crate / "src/main.rt").is_file():
        with tempfile.TemporaryDirectory() as folder:
            built.generated(crate, folder)
            found = dict(mir.of_text(folder))
    else:
        found = dict(mir.of_library(built.library(crate) / "toolchain/mir.json"))
    own = {name: body for name, body in found.items() if name.startswith(crate + "::")}
    written = {name for file in files_of("rt") if file.parts[len(ROOT.parts) + 1] == crate for name in re.findall(r'^ *(?:pub )?(?:extern "C" )?fn (\w+)', file.read_text(), re.M)}
    unread = sorted(written - {name.split("::")[-1] for name in own})
    if unread:
        raise built.NotBuilt(f"of {crate} no code was read of {', '.join(unread)}")
    return own


def code_of(sample):
    """The functions of an example, which need not be proved, each with its body."""
    with tempfile.TemporaryDirectory() as folder:
        built.generated_apart(example(folder, sample), Path(folder) / "generated")
        return dict(mir.of_text(Path(folder) / "generated"))


def example(folder, sample):
    """Makes a crate of an example, in a repository of its own."""
    source = Path(folder) / "crates/sample/src/lib.rt"
    source.parent.mkdir(parents=True)
    (Path(folder) / "crates.txt").write_text("sample:\n")
    source.write_text(sample)
    return source.parent.parent


def readers_agree():
    """The code of an example is the same in the library that is compiled and in what the prover reads."""
    with tempfile.TemporaryDirectory() as folder:
        crate = example(folder, mir.SAMPLE)
        built.build(["rt", "lib"], crate)
        built.generated_apart(crate, Path(folder) / "generated")
        compiled = dict(mir.of_library(crate / "out/rlib/sample.rlib/toolchain/mir.json"))
        proved = dict(mir.of_text(Path(folder) / "generated"))
    wrong = [f"in one alone: {name}" for name in sorted(set(compiled) ^ set(proved))]
    wrong += [f"not the same: {name}" for name in sorted(set(compiled) & set(proved)) if compiled[name] != proved[name]]
    return wrong + ([f"{len(compiled)} functions were read"] if len(compiled) != mir.SAMPLE_COUNT else [])


# The functions that make an access to the table each, and the one by which they count it.
ACCESSES, COUNTER = {"cells::get", "cells::put"}, "cells::count"
# The book of a table, which has its cells and their count; the functions that make one, and those that show the cells behind a reference.
BOOK = "walks::book::Book"
MAKERS = {f"{BOOK}::new", f"{BOOK}+mut+slice+u64::over"}
SHOWN = {f"walks::book::{name}Cells::shown" for name in ("RefSliceU64", "RefMutSliceU64")}
# The six requests: each makes one book, over the cells that its arena needs.
REQUESTS = {f"arena::{name}" for name in ("start", "take", "give_back", "which", "figures", "check_up")}
# What a request hands out, and what `serve` does, each with its count as the second field; and the functions of the library that call through a bound:
# three of a book of any kind, which has its cells shown, and two of a reply of any kind, which says its values and is copied.
REPLY, SERVED = "arena::told::Counted", "sequence::Served"
THROUGH_A_BOUND = {*(f"{BOOK}::{name}" for name in ("get", "down", "locate")), f"{REPLY}::numbers", f"{REPLY}Clone::clone"}
# The lists of requests and of answers are slices of u64 too: the functions of `sequence` that have such lists, and the names of the parameters that
# are. The table is none of these parameters. Where nothing else that comes in may have a slice of u64, a function may do with them what it likes.
LISTS = {
    "request_at": {"requests"},
    "store": {"answers"},
    "all_known": {"requests"},
    "can_serve": {"requests"},
    "serve": {"requests", "answers"},
    "serve_both": {"requests", "a", "b"},
}
# The player is the host that lends the table, and no part of the library: it has the table, fills it with garbage and flips bits on purpose.
HOST_FUNCTIONS = {"breatharena::host::Host::enter", "breatharena::host::Host::flip"}


def all_code():
    """The functions of all crates, each with its body."""
    return {name: body for crate in crates() for name, body in code(crate).items()}


def source_of(name):
    """The source text that a function stands in."""
    crate, *modules = name.split("::")[:-1]
    folder = ROOT / "crates" / crate / "src"
    files = [folder / "/".join(modules[:count]) for count in range(len(modules), 0, -1)]
    return next((file for file in (one.with_suffix(".rt") for one in files) if file.is_file()), next(folder / root for root in ("lib.rt", "main.rt") if (folder / root).is_file())).read_text()


def lists():
    """The functions that have lists of requests or answers, each with the numbers of the parameters that are."""
    source = source_of("sequence::serve")
    return {f"sequence::{function}": {str(number) for number, name in enumerate(needed.names(source, function), 1) if name in ones}
            for function, ones in LISTS.items()}


def accesses_counted():
    """Only cells::get and cells::put reach an element of a slice of u64, one each, but for the lists of requests and answers."""
    return accesses.faults(all_code(), ACCESSES, MAKERS, SHOWN, {BOOK}, lists(), HOST_FUNCTIONS)


def differences(said, faults):
    """Where what a check said of its example is not what is to be said of it."""
    wrong = [f"{name}: not said: {fault}" for name, fault in faults.items()
             if not any(one.startswith(f"sample::{name} ") and fault in one for one in said)]
    return wrong + [f"said: {one}" for one in said if one.split()[0].removeprefix("sample::") not in faults]


def of_sample(*names):
    """The names of functions and types of an example."""
    return {f"sample::{name}" for name in names}


def access_check_catches():
    """The check of accesses catches each function of its example that reaches elements or hides a slice, and no other."""
    bodies = code_of(accesses.SAMPLE)
    gets = {name for name in bodies if name.startswith("sample::gets")}
    shown = of_sample("RefSliceU64Cells::shown", "RefMutSliceU64Cells::shown", "RefSliceU64Rest::rest", "RefMutSliceU64Rest::rest")
    return differences(accesses.faults(bodies, gets, of_sample("Book::new"), shown, of_sample("Book"), accesses.SAMPLE_LISTS, set()), accesses.FAULTS)


def part_of(name):
    """The part that a function plays in counting accesses; serve_both hands out no count (docs/CLAIMS.md), the player is no part of the library."""
    crate = name.split("::")[0]
    parts = {"arena": "tells", "sequence": "adds", "sequence::serve_both": "free", "capi": "asks", "capi_c": "asks", "breatharena": "host"}
    parts |= dict.fromkeys(crates()["arena"], "counts") | dict.fromkeys(REQUESTS, "opens")
    return parts.get(name) or parts.get(crate, crate)


def counts_kept():
    """The number of accesses that a request hands out is the count that cells::get and cells::put kept."""
    return counts.faults(all_code(), part_of, COUNTER, ACCESSES, {BOOK}, {REPLY, SERVED}, THROUGH_A_BOUND)


def part_in_sample(name):
    """The part that a function of the example of the check of counts plays: the first word of its name; a closure plays that of its function."""
    words = name.split("::")
    word = (words[2] if words[1] == "fn" else words[1].split("+")[0]).split("_")[0]
    return {"Book": "counts", "Loose": "counts", "Counted": "tells", "CountedClone": "tells"}.get(word, word)


def count_check_catches():
    """The check of counts catches each function of its example that counts wrongly, and no other."""
    bodies = code_of(counts.SAMPLE)
    gets = {name for name in bodies if name.startswith("sample::counts_get")}
    unnamed = of_sample("Book::get", "Loose::get", "Loose::lend", "CountedClone::clone")
    one, two = (counts.faults(bodies, part_in_sample, counter, gets, of_sample("Book", "Loose"), of_sample("Counted", "Served"), unnamed)
                for counter in ("sample::counts_one", "sample::counts_two_at_once"))
    wrong = [] if any(fault.startswith("sample::counts_two_at_once does not add one") for fault in two) else ["counts_two_at_once: not said that it does not add one"]
    return wrong + differences(one, counts.FAULTS)


def only_needed_lent():
    """A request makes its book over exactly the needed cells of its own m; a contract that does not ask or promise it is seen."""
    bodies = all_code()
    wrong = needed.faults(bodies, REQUESTS, MAKERS, "terms::arenas::Arena::cells", source_of)
    for what, clause, old, new in needed.EDITS:
        edited = {name: re.sub(old, new, source_of(name)) for name in bodies if (name in MAKERS) == (clause is needed.ASKED)}
        said = needed.faults(bodies, REQUESTS, MAKERS, "terms::arenas::Arena::cells", lambda name: edited.get(name) or source_of(name))
        if len(said) != len(REQUESTS):
            wrong.append(f"not seen in all six requests: {what}")
    return wrong


def needed_check_catches():
    """The check of needed cells catches each function of its example that makes its book over other cells or in another arena, and no other."""
    bodies = code_of(needed.SAMPLE)
    said = [fault for name, body in bodies.items() for fault in needed.request_faults(name, body, {"sample::Book::new"}, "sample::Arena::cells", lambda called: called == "sample::admit",
                                                                                      needed.names(needed.SAMPLE, name.split("::")[-1]))]
    return differences(said, needed.FAULTS)


def interface(source):
    """The public functions of a source text: the parameters and the contract of each, and its body."""
    found = re.findall(r'^pub (?:extern "C" )?fn (\w+)(.*?)^\{(.*?)^\}', source, re.M | re.S)
    # a long list of parameters stands on lines of its own, with a comma at its end
    return {name: (" ".join(head.split()).replace("( ", "(").replace(", )", ")"), " ".join(body.split())) for name, head, body in found}


def export_faults(library, exports):
    """Where what is exported for C differs from the library's functions, by the text of both."""
    own, theirs = interface(library), interface(exports)
    wrong = [f"in one alone: {name}" for name in sorted(set(own) ^ set(theirs))]
    meant, brought = (set(re.findall(r"^ghost use .*$", text, re.M)) for text in (library, exports))
    wrong += [f"other words of clauses: {line}" for line in sorted(meant ^ brought)]
    for name in sorted(set(own) & set(theirs)):
        words = ", ".join(re.findall(r"(\w+): ", own[name][0].split(")")[0]))
        wrong += [] if theirs[name] == (own[name][0], f"capi::{name}({words})") else [f"another contract or body: {name}"]
    marked = exports.count('#[unsafe(no_mangle)]\npub extern "C" fn ')
    return wrong + ([] if marked == len(theirs) == exports.count("fn ba_") else ["not every function is exported"])


def exports_repeat():
    """Each function of the library of the C interface is exported under its name, with the same parameters and clauses, and only calls it."""
    library, exports = ((ROOT / f"crates/{name}/src/lib.rt").read_text() for name in ("capi", "capi_c"))
    wrong = export_faults(library, exports)
    for old, new in (("ensures in_order {", "ensures in_order { true × "), ("start, size)", "size, start)"), ("#[unsafe(no_mangle)]", "#[inline]"), ("m: u64, n: u64", "n: u64, m: u64"),
                     ("fn ba_take", "fn ba_taken"), ("    ensures right", "    // ensures right"), ("Table.{need}", "Other.{need}")):
        if old not in exports or not export_faults(library, exports.replace(old, new, 1)):
            wrong.append(f"not seen: {new}")
    return wrong


def says(command, **words):
    """Runs a command: its last lines where it fails, nothing where it does not."""
    run = subprocess.run(command, cwd=ROOT, capture_output=True, text=True, **words)
    text = (run.stdout + run.stderr).strip().split("\n")
    if run.returncode:
        return [f"{' '.join(map(str, command[:3]))} ended with {run.returncode}"] + text[-6:]
    NOTES.lines.append(text[-1])
    return []


def model_tested():
    """The independent model of document 01, and the independent test of soundness, pass their own tests."""
    return says(["python3", "-B", "tests/test_model.py"]) + says(["python3", "-B", "tests/test_soundness.py"])


def tests_catch():
    """The tests catch doubles of the C interface and of the player that have one fault each."""
    return says(["python3", "-B", "tests/caught.py"])


def c_example_runs():
    """The example in C compiles without a warning and writes what it should."""
    with tempfile.TemporaryDirectory() as folder:
        program = Path(folder) / "example"
        wrong = says(["tools/c-program", program, "examples/c/main.c"])
        if not wrong:
            wrote = subprocess.run(["tools/run", program], cwd=ROOT, capture_output=True, text=True)
            if wrote.stdout != (ROOT / "examples/c/expected.txt").read_text() or wrote.returncode:
                wrong = ["it wrote:", *wrote.stdout.split("\n")]
        return wrong


def c_interface_agrees():
    """The C interface agrees with the model, and on damaged tables it is safe and its check-up agrees with the test of soundness."""
    with tempfile.TemporaryDirectory() as folder:
        driver = Path(folder) / "driver"
        wrong = says(["tools/c-program", driver, "tests/c/driver.c"])
        for test in ("tests/capi.py", "tests/faults.py"):
            wrong = wrong or says(["python3", "-B", test, "tools/run", driver])
        return wrong


def player_agrees():
    """The player agrees with the model on every script, stops at bad lines, and its costs are within the proved bounds."""
    return says(["python3", "-B", "tests/play.py", "./breatharena"])


def worked_rows():
    """The rows of document 01's section 6 with the model's answers, in words: number, request, answer, bytes live, bytes held, room."""
    lines = [line for line in scripts.worked_run().lines if line.request[0] in ("take", "give", "figures")]
    pairs = enumerate(zip(lines[::2], lines[1::2]), 1)
    return [f"{number} {asked.text} {asked.expected} {figures.expected}".split() for number, (asked, figures) in pairs]


def worked_faults(printed):
    """Where a printed table of the worked run has another row than the model."""
    rows = [line.split() for line in printed.strip().split("\n")[1:]]
    return [f"printed: {row}, by the model: {right}" for row, right in itertools.zip_longest(rows, worked_rows()) if row != right]


def worked_run_printed():
    """The worked run, as tools/worked-run prints it, has the 21 rows of document 01's section 6 with the model's answers; another number is seen."""
    run = subprocess.run(["tools/worked-run"], cwd=ROOT, capture_output=True, text=True)
    wrong = worked_faults(run.stdout)
    wrong += run.stderr.split("\n") if wrong else []
    others = [f"{run.stdout[:one.start()]}{int(one.group()) + 1}{run.stdout[one.end():]}" for one in re.finditer(r"\d+", run.stdout)]
    wrong += [f"not seen that this is wrong: {other}" for other in (*others, run.stdout.rsplit("\n", 2)[0]) if not worked_faults(other)]
    return wrong + ([f"the model's run has {len(worked_rows())} rows"] if len(worked_rows()) != 21 else [])


def readme_example_holds():
    """README's worked example has the answers of the model and of the player; another answer, or no example, is seen."""
    command = ["python3", "-B", "tests/readme.py", "./breatharena"]
    text = (ROOT / "README.md").read_text()
    wrong = says([*command, "README.md"])
    for what, other in (("another answer", text.replace("`start: done`", "`start: refusal 6`")), ("no example", text.replace("## A worked example", "##"))):
        with tempfile.NamedTemporaryFile("w", suffix=".md") as file:
            file.write(other)
            file.flush()
            if subprocess.run([*command, file.name], cwd=ROOT, capture_output=True).returncode != 1:
                wrong.append(f"{what} is not seen")
    return wrong


# two lanes, side by side: the checks over the texts and the code, with the tests of the tests; the tests of what is built
LANES = [
    [claims_hold, claims_check_catches, layout_kept, no_holes, readers_agree, accesses_counted, access_check_catches, counts_kept, count_check_catches,
     only_needed_lent, needed_check_catches, exports_repeat, model_tested, tests_catch],
    [c_example_runs, c_interface_agrees, player_agrees, worked_run_printed, readme_example_holds],
]


def passes(check):
    """Makes a check and tells what it said; whether it passed."""
    NOTES.lines = []
    try:
        wrong = check()
    except built.NotBuilt as error:
        wrong = str(error).split("\n")
    except Exception as error:  # a check that can't be made has failed, and the others are still made
        wrong = [f"{type(error).__name__}: {error}"]
    said = [f"    {line}" for line in NOTES.lines if line]
    print("\n".join([*said, f"{'FAILED' if wrong else 'ok'}: {check.__doc__.splitlines()[0]}", *(f"    {line}" for line in wrong)]), flush=True)
    return not wrong


def main():
    with ThreadPoolExecutor(len(LANES)) as lanes:
        passed = [one for lane in lanes.map(lambda lane: [passes(check) for check in lane], LANES) for one in lane]
    print(f"{sum(passed)} passed, {len(passed) - sum(passed)} failed")
    return 0 if all(passed) else 1


if __name__ == "__main__":
    sys.exit(main())
