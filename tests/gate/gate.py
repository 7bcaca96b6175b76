#!/usr/bin/env python3
"""The gate: every check of the repository, one after the other. A failed check does not stop the later ones.

The very last line is `N passed, M failed`; the exit status is 0 exactly when M is 0, and else 3. N counts what `rt ci` counts (the crates that
prove, with their tests and runs, and the must-fail edits that are refused), the checks of texts (what crates open of each other, claims, what has
to be believed, crates.txt, its drawing, the calls for C, long lines), the stack that the header tells, the Rust tests, the Python tests, and twenty
edits whose programs were run.
pins.txt says how many tests and edits there must be at least, and on which axioms the library may rest.
"""
import os
import re
import shutil
import subprocess
import sys
import time
from pathlib import Path

sys.dont_write_bytecode = True
import belief  # noqa: E402
import claims  # noqa: E402
import crates  # noqa: E402
import declarations  # noqa: E402
import drawing  # noqa: E402
import exports  # noqa: E402
import frames  # noqa: E402
import laws_only  # noqa: E402
import lines as long_lines  # noqa: E402
import must_fail  # noqa: E402
import names as statements  # noqa: E402
import printed  # noqa: E402

ROOT = Path(__file__).resolve().parents[2]
TARGET = ROOT / 'target'
PINS = Path(__file__).with_name('pins.txt')
CARGO_TEST = ['cargo', 'test', '--release', '--offline', '--locked', '--no-fail-fast', '--workspace']
EXPLORER = ROOT / 'crates' / 'explorer' / 'out' / 'explorer'
# the gate's own length and seed of the fuzzing, whatever the caller's environment says; every case of every test
OWN = {'FUZZ_SECONDS': '110'}
NOT_TAKEN = ['FUZZ_SEED', 'TEST_SHARE']


class Tally:
    """What passed and what failed so far, and what is said at the end."""

    def __init__(self):
        self.passed = 0
        self.failed = 0
        self.notes = []
        self.pins = printed.pins(PINS.read_text(encoding='utf-8'))

    def add(self, passed, failed):
        self.passed += passed
        self.failed += failed

    def fail(self, why):
        print(f'gate: FAILED: {why}', flush=True)
        self.failed += 1

    def note(self, what):
        self.notes.append(what)

    def number(self, name):
        return int(self.pins[name][0])

    def at_least(self, name, found):
        """A number that may not fall below its pin."""
        if found < self.number(name):
            self.fail(f'{found} {name}, and pins.txt has {self.number(name)}')

    def line(self):
        return f'{self.passed} passed, {self.failed} failed'


def run(words):
    """Runs a command, shows what it prints, and gives its exit status and its lines."""
    print(f'gate: {" ".join(words)}', flush=True)
    lines = []
    try:
        with subprocess.Popen(words, cwd=ROOT, stdin=subprocess.DEVNULL, stdout=subprocess.PIPE,
                              stderr=subprocess.STDOUT, encoding='utf-8', errors='replace') as process:
            for line in process.stdout:
                print(line, end='', flush=True)
                lines.append(line.rstrip('\n'))
        return process.returncode, lines
    except OSError as error:
        print(f'gate: {error}', flush=True)
        return 127, lines


def samples(tally):
    """The gate reads its own samples rightly; the crates' laws have theirs with them."""
    own = printed.wrong_sample() + must_fail.wrong_samples() + declarations.wrong_sample() + statements.wrong_sample() + frames.wrong_sample()
    for why in own:
        tally.fail(why)


def every_crate_is_listed(tally):
    names = re.findall(r'^\s*(\w+)(?: +staticlib)?\s*:', (ROOT / 'crates.txt').read_text(encoding='utf-8'), re.M)
    folders = sorted(p.name for p in (ROOT / 'crates').iterdir() if p.is_dir())
    for name in folders:
        if name not in names:
            tally.fail(f'crates/{name} is not listed in crates.txt')
    for name in names:
        if name not in folders:
            tally.fail(f'crates.txt lists {name}, and there is no crates/{name}')


def counted(tally, wrong, passed_over=()):
    """One check more that passed, or all that is wrong; what was passed over is told."""
    for why in wrong:
        tally.fail(why)
    for what in passed_over:
        tally.note(what)
    if not wrong:
        tally.add(1, 0)


def only_laws(tally):
    """The crates of laws_only.txt open no definition of another crate."""
    counted(tally, laws_only.said(ROOT))


def claimed_and_believed(tally):
    """What CLAIMS cites is there; what its promises lead to stands where it may, and is counted there."""
    files = declarations.files(ROOT)
    counted(tally, claims.said(ROOT, files))
    counted(tally, *belief.said(ROOT, files))


def arrows(tally):
    """crates.txt has what the crates' files name, and the drawing is its own."""
    counted(tally, *crates.said(ROOT))
    counted(tally, drawing.said(ROOT))


def calls_for_c(tally):
    """The static library has the calls of the header, each as a crate c_* has it."""
    counted(tally, exports.said(ROOT))


def short_lines(tally):
    """No document has more long lines than lines.txt lets it have."""
    counted(tally, long_lines.said(ROOT))


def proofs(tally):
    """`rt ci`: formatting, every proof, every must-fail edit, the programs and their tests."""
    began = time.monotonic()
    status, lines = run(['rt', 'ci'])
    tally.note(f'rt ci took {(time.monotonic() - began) / 60:.0f} min')
    passed, failed, why = printed.rt_ci(status, lines, tally.number('edits'))
    tally.add(passed, failed)
    for one in why:
        tally.fail(one)


def read(file):
    return file.read_text(encoding='utf-8') if file.is_file() else None


def all_edits():
    return sorted(ROOT.glob('crates/*/must-fail/*.edit'))


def edits(tally):
    """There are as many edits as pinned, and each can be made and says on which input it answers wrongly."""
    found = all_edits()
    tally.at_least('edits', len(found))
    for edit in found:
        text = edit.read_text(encoding='utf-8')
        why = must_fail.without_input(text) or must_fail.misplaced(text, lambda file: read(edit.parents[1] / file))
        if why:
            tally.fail(f'must-fail {edit.parts[-3]}/{edit.stem}: {why}')


def rust_formatting(tally):
    """`cargo fmt --check`, where it is installed."""
    if shutil.which('rustfmt') is None or shutil.which('cargo-fmt') is None:
        tally.note('not run: cargo fmt, which is not installed here')
    elif run(['cargo', 'fmt', '--all', '--check'])[0] != 0:
        tally.fail('cargo fmt --check')


def rust_lints(tally):
    """`cargo clippy` without a warning, where it is installed."""
    if shutil.which('cargo-clippy') is None:
        tally.note('not run: cargo clippy, which is not installed here')
        return
    words = ['cargo', 'clippy', '--release', '--offline', '--locked', '--workspace', '--all-targets', '--', '-D', 'warnings']
    if run(words)[0] != 0:
        tally.fail('cargo clippy')


def rust_tests(tally):
    library = TARGET / 'staticlib' / 'libtarczolin.a'
    library.unlink(missing_ok=True)
    status, lines = run(['make', '--no-print-directory', 'library'])
    if status != 0 or not library.is_file():
        tally.fail('make library made no library, so the Rust tests were not run')
        return
    if printed.axioms(lines) != tally.pins['axioms']:
        tally.fail(f'the library rests on {" ".join(printed.axioms(lines)) or "what is not told"}, and pins.txt has {" ".join(tally.pins["axioms"])}')
    counted(tally, frames.said(ROOT))
    if not EXPLORER.is_file() and run(['make', '--no-print-directory', 'explorer'])[0] != 0:
        tally.fail('there is no listing program for the Rust tests to run')
    tests = cargo_tests(tally, CARGO_TEST)
    for why in tests.wrong(tally.pins['ignored']):
        tally.fail(why)
    tally.at_least('rust-tests', tests.passed + tests.failed)


def cargo_tests(tally, words):
    """Runs Rust tests and counts them."""
    status, lines = run(words)
    tests = printed.Tests(lines)
    tally.add(tests.passed, tests.failed)
    if tests.passed == 0 or (status != 0 and tests.failed == 0):
        tally.fail(f'cargo test ended with status {status} after {tests.passed} tests')
    return tests


def passed_over(tally, file, ending):
    """Runs the tests of a file that the others pass over: those that pins.txt names with this ending."""
    tests = cargo_tests(tally, CARGO_TEST[:-1] + ['--package', 'tarczolin', '--test', file, '--', '--ignored'])
    pinned = [name for name in tally.pins['ignored'] if name.endswith(ending)]
    if tests.passed + tests.failed != len(pinned):
        tally.fail(f'{tests.passed + tests.failed} tests of {file} are passed over, and pins.txt names {len(pinned)}')


def browser(tally):
    """The tool's page laid out by a browser, where there is one."""
    if shutil.which('chromium') is None:
        tally.note('not run: the page in a browser, since there is no chromium here')
        return
    passed_over(tally, 'browser', '_browser')


def slurm(tally):
    """The recipe by Slurm, where it is installed."""
    missing = [name for name in ('slurmctld', 'slurmd', 'sbatch', 'munged') if shutil.which(name) is None]
    if missing:
        tally.note(f'not run: the recipe by Slurm, since there is no {", ".join(missing)} here (slurm-wlm, munge)')
        return
    passed_over(tally, 'cluster', '_slurm')


def python_tests(tally):
    """The tests of the Python package, over the shared library and the command that the Rust tests left."""
    status, _ = run(['make', '--no-print-directory', 'library', 'tool'])
    if status != 0:
        tally.fail('make library tool made no shared library or no command, so the Python tests were not run')
        return
    status, lines = run([sys.executable, '-B', '-m', 'unittest', 'discover', '-s', 'python/tests'])
    passed, failed, skipped = printed.unittests(lines)
    tally.add(passed, failed)
    if skipped or passed == 0 or (status != 0 and failed == 0):
        tally.fail(f'the Python tests ended with status {status}: {passed} passed, {skipped} skipped')
    tally.at_least('python-tests', passed + failed)


def wrong_answers(tally):
    """Some programs with an edit in them, drawn by the commit's hash, answer as wrongly as its remark says."""
    status, lines = run([sys.executable, '-B', 'tests/edits.py', '--some', '20'])
    count = re.fullmatch(r'edits: (\d+) give the wrong answer that they speak of, (\d+) do not', lines[-1]) if lines else None
    if count:
        tally.add(int(count[1]), int(count[2]))
    if (not count) or (status != 0 and count[2] == '0'):
        tally.fail(f'tests/edits.py ended with status {status} and no count')


def validator(tally):
    """Whether the test of docs/schema.json could ask a validator: a Rust test does where there is one."""
    pythons = [one for one in ('python3', '/usr/bin/python3') if shutil.which(one)]
    if not any(subprocess.run([one, '-c', 'import jsonschema'], capture_output=True).returncode == 0 for one in pythons):
        tally.note('not run: docs/schema.json by a validator, since there is no python3-jsonschema here')


# what takes no time: `gate.py quick` runs only these, and counts for nothing
QUICK = (samples, every_crate_is_listed, only_laws, claimed_and_believed, arrows, calls_for_c, short_lines, edits)
CHECKS = (*QUICK, rust_formatting, proofs, rust_tests, python_tests, wrong_answers, rust_lints, browser, slurm, validator)


def main(quick):
    os.environ.update(OWN)
    for name in NOT_TAKEN:
        os.environ.pop(name, None)
    tally = Tally()
    for check in QUICK if quick else CHECKS:
        try:
            check(tally)
        except Exception as error:  # a check that cannot be carried out has failed
            tally.fail(f'{check.__name__}: {error!r}')
    for note in tally.notes:
        print(f'gate: {note}', flush=True)
    print(tally.line(), flush=True)
    sys.exit(0 if tally.failed == 0 else 3)


if __name__ == '__main__':
    try:
        main(sys.argv[1:] == ['quick'])
    except Exception as error:
        print(f'gate: {error!r}\n0 passed, 1 failed', flush=True)
        sys.exit(3)
