"""Random programs, with random names: the ends that Python works out are the command's, under both models."""
import random
import tempfile
import unittest
from pathlib import Path

from here import answers
from tarczolin import Program

CASES = 400


class Maker:
    """Makes programs of a few threads on two locations, whose values meet: small ones, and those at the ends of 32 bits."""

    def __init__(self, seed):
        self.random = random.Random(seed)

    def operand(self):
        if self.random.random() < 0.3:
            return '01' + f'{self.random.randrange(4):08x}'
        return '00' + self.random.choice(['00000000', '00000001', '00000002', 'ffffffff', '80000000', '7fffffff'])

    def instruction(self, behind):
        register, location = f'{self.random.randrange(4):02x}', f'{self.random.randrange(2):02x}'
        kinds = ['10', '10', '11', '11', '12', '13', '20', '21', '23', '25'] + (['22', '24'] if behind else [])
        kind = self.random.choice(kinds)
        if kind == '10':
            return kind + location + self.operand()
        if kind in ('11', '12', '13'):
            return kind + register + location + ''.join(self.operand() for _ in range({'11': 0, '12': 1, '13': 2}[kind]))
        skip = f'{self.random.randint(1, behind):02x}' if kind in ('22', '24') else ''
        return kind + register + self.operand() + skip

    def names(self):
        """Name lines, some of which say what an earlier one said already, or what is no name."""
        things = ['x0', 'x1', 'T0', 'T1', 'T0 r0', 'T0 r1', 'T1 r0', 'T9', 'x9']
        words = ['lock', 'tail', 'r1', 'store', 'T0', 'lock2', '7', 'mine']
        number = self.random.randrange(5)
        return [f'# name {self.random.choice(things)} {self.random.choice(words)}' for _ in range(number)]

    def file(self):
        lines = self.names()
        if self.random.random() < 0.5:
            lines.append('0300' + self.random.choice(['00000001', 'ffffffff']))
        for _ in range(self.random.randint(1, 3)):
            length = self.random.randint(1, 5)
            lines += ['01'] + [self.instruction(length - 1 - at) for at in range(length)]
        return ''.join(f'{line}\n' for line in lines).encode()


class Random(unittest.TestCase):
    def test_outcomes(self):
        keys = ['memory', 'registers', 'fails', 'listed', 'executions']
        seen = 0
        with tempfile.TemporaryDirectory() as folder:
            paths = []
            for seed in range(CASES):
                paths.append(Path(folder) / f'{seed}.hex')
                paths[-1].write_bytes(Maker(seed).file())
            for model in ('sc', 'tso'):
                told = answers('outcomes', *map(str, paths), '--registers', '--model', model)
                called = answers('outcomes', *map(str, paths), '--model', model)
                for path in paths:
                    mine = [one for one in told if one['file'] == str(path)]
                    self.assertNotIn('error', mine[0], path.read_text(encoding='ascii'))
                    found = Program(path.read_bytes(), model).ends()
                    outcomes = [one for one in called if one['file'] == str(path)][:-1]
                    self.assertEqual([(one.memory, one.fails, str(one.first)) for one in Program(path.read_bytes(), model).outcomes()],
                                     [(one['memory'], one['fails'], one['schedule']) for one in outcomes],
                                     f'{model}\n{path.read_text(encoding="ascii")}')
                    self.assertEqual([[getattr(one, key) for key in keys] + [str(one.first)] for one in found],
                                     [[one[key] for key in keys] + [one['schedule']] for one in mine[:-1]],
                                     f'{model}\n{path.read_text(encoding="ascii")}')
                    seen += len(found)
        self.assertGreater(seen, 4 * CASES)


if __name__ == '__main__':
    unittest.main()
