"""What rt and cargo print, read for the gate."""
import re

RESULT = re.compile(r'test result: \w+\. (\d+) passed; (\d+) failed; (\d+) ignored; \d+ measured; (\d+) filtered out')
IGNORED = re.compile(r'test (?:\S+::)*(\S+?) \.\.\. ignored')
AXIOMS = re.compile(r'axioms (\S+): (?:none reached of the \d+ declared|(.*) \(\d+ of the \d+ declared\))$')
UNITTESTS = re.compile(r'Ran (\d+) tests? in ')
COUNT = re.compile(r'(\d+) passed, (\d+) failed$')
# an edit that is refused only since a proof file cites a name that it took away: that says nothing of the contract
NAME_GONE = re.compile(r'rt: must-fail (\S+)\.edit: refused, as it must be \(only because a proof file names')
EDITS = re.compile(r'rt: ok;.*; must-fail edits: (\d+) refused(?:, (\d+) of them only by a limit)?(?:, (\d+) bad)?;')


class Tests:
    """What `cargo test` says of its tests."""

    def __init__(self, lines):
        results = [match for match in map(RESULT.match, lines) if match]
        self.passed = sum(int(match[1]) for match in results)
        self.failed = sum(int(match[2]) for match in results)
        self.ignored = sum(int(match[3]) for match in results)
        self.filtered = sum(int(match[4]) for match in results)
        self.ignored_names = [match[1] for match in map(IGNORED.match, lines) if match]

    def wrong(self, may_be_ignored):
        """Which tests were passed over that may not be."""
        said = [f'test {name} is ignored' for name in self.ignored_names if name not in may_be_ignored]
        if self.ignored != len(self.ignored_names):
            said.append(f'{self.ignored} tests are ignored, and {len(self.ignored_names)} of them are named')
        if self.filtered:
            said.append(f'{self.filtered} tests are filtered out')
        return said


def unittests(lines):
    """What Python's unittest says: how many passed, failed (errors too) and were skipped."""
    ran = next((int(match[1]) for match in map(UNITTESTS.match, lines) if match), 0)
    ended = next((line for line in reversed(lines) if line.startswith(('OK', 'FAILED'))), '')
    count = {name: int(number) for name, number in re.findall(r'(\w+)=(\d+)', ended)}
    failed, skipped = count.get('failures', 0) + count.get('errors', 0), count.get('skipped', 0)
    return max(ran - failed - skipped, 0) if ended else 0, failed, skipped


def rt_ci(status, lines, pinned):
    """What rt ci says: how many passed and failed by its last line, and what is wrong besides. It passes with edits that are BAD, and that are refused for no
    fact; the gate does not. A line for each edit stands only in the run that tries it."""
    last = lines[-1] if lines else ''
    count = COUNT.match(last)
    passed, failed = (int(count[1]), int(count[2])) if count else (0, 0)
    if not count or (status != 0) != (failed != 0):
        return passed, failed, [f'rt ci ended with status {status} and the line {last!r}']
    told = next((match for match in map(EDITS.match, lines) if match), None)
    refused, limited, bad = (int(told[1]), int(told[2] or 0), int(told[3] or 0)) if told else (0, 0, 0)
    said = [f'rt ci tells of {bad} bad must-fail edits'] if bad else []
    if limited:
        said.append(f'rt ci refused {limited} must-fail edits only by a limit, which says nothing of a contract')
    said += [f'the edit {match[1]} is refused only since a name is gone' for match in map(NAME_GONE.match, lines) if match]
    if failed == 0 and refused < pinned:
        said.append(f'rt ci refused {refused} must-fail edits, and pins.txt has {pinned}')
    return passed, failed, said


def axioms(lines):
    """What the crate that rt proved last rests on beside the logic, by its lines `axioms ..`, one for each of the kit's libraries: `none` where these
    say so, and nothing where there is no such line."""
    found = {match[1]: match[2] for match in map(AXIOMS.match, lines) if match}
    return [name for names in found.values() for name in re.split(r',\s*', names or '') if name] or (['none'] if found else [])


def pins(text):
    """pins.txt: each line's name with its words."""
    rows = [line.partition(':') for line in text.splitlines() if line.strip() and not line.startswith('#')]
    return {name.strip(): words.split() for name, _, words in rows}


SAMPLE = """test laid_out ... ignored, needs chromium
test deep::inside::skipped ... ignored
test counted ... ok
test result: ok. 7 passed; 0 failed; 2 ignored; 0 measured; 0 filtered out; finished in 0.01s
test result: FAILED. 3 passed; 1 failed; 1 ignored; 0 measured; 4 filtered out; finished in 0.01s
""".splitlines()


OF_RT = """axioms libc: libc::read, libc::write (2 of the 128 declared)
axioms os: none reached of the 22 declared
rt: must-fail a/b.edit: refused, as it must be (only because a proof file names what the edit took away, so this says little): ..
rt: ok; handles allowed: none; must-fail edits: 7 refused, 1 of them only by a limit, 2 bad; every proof and must-fail edit was done in this run
9 passed, 0 failed
""".splitlines()


def of_rt():
    """What is read of the sample of rt ci, and of others like it."""
    limited = [line.replace(', 2 bad', '') for line in OF_RT if not NAME_GONE.match(line)]
    fine = [line.replace(', 1 of them only by a limit', '') for line in limited]
    failed = ['rt: FAILED: a', '8 passed, 1 failed']
    cases = [(0, OF_RT, 7), (0, limited, 7), (0, fine, 7), (0, fine, 8), (1, failed, 7), (0, failed, 7), (1, fine, 7), (1, [], 7), (0, OF_RT[-1:], 7)]
    return [(passed, failed, len(why)) for passed, failed, why in (rt_ci(*case) for case in cases)]


def wrong_sample():
    """Which part of the sample is read wrongly."""
    tests = Tests(SAMPLE)
    parts = {
        'counts': (tests.passed, tests.failed, tests.ignored, tests.filtered) == (10, 1, 3, 4),
        'ignored': tests.wrong(['laid_out']) == [
            'test skipped is ignored', '3 tests are ignored, and 2 of them are named', '4 tests are filtered out'],
        'rt ci': of_rt() == [(9, 0, 3), (9, 0, 1), (9, 0, 0), (9, 0, 1), (8, 1, 0), (8, 1, 1), (9, 0, 1), (0, 0, 1), (9, 0, 1)],
        'axioms': [axioms(OF_RT), axioms(OF_RT[1:]), axioms([])] == [['libc::read', 'libc::write'], ['none'], []],
        'unittests': [unittests(['Ran 9 tests in 1.2s', '', last]) for last in ('OK', 'OK (skipped=2)', 'FAILED (failures=1, errors=2)', '')]
        == [(9, 0, 0), (7, 0, 2), (6, 3, 0), (0, 0, 0)],
        'pins': pins('# a remark\na: 1\n\nb-c: x y\n') == {'a': ['1'], 'b-c': ['x', 'y']},
    }
    return [f'printed.py reads its sample wrongly: {name}' for name, right in parts.items() if not right]
