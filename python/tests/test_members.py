"""Members of a list by their numbers, the numbers of schedules, and members drawn: beside the walk and the command's answers."""
import unittest
from itertools import islice

from here import EXAMPLES, answers, file, programs
from tarczolin import Program, Refused, Unfit
from tarczolin._random import Numbers

LONGEST = ('01\n' + '1200000000000001\n' * 4) * 6
LISTED = 3_246_670_537_110_000
PAIR = file('store-load-pair.hex')


class Members(unittest.TestCase):
    def test_there_and_back(self):
        for name in programs():
            program = Program.read(EXAMPLES / name)
            found = list(islice(program.executions(), 40))
            with self.subTest(name):
                self.assertEqual([program.kth(number) for number in range(len(found))], found)
                self.assertEqual([program.rank(one.schedule) for one in found], list(range(len(found))))
                self.assertIsNone(program.kth(program.count().listed))
                for memory in (0, 8, 1000):
                    self.assertEqual((program.kth(len(found) - 1, memory), program.rank(str(found[-1]), memory)),
                                     (found[-1], len(found) - 1))

    def test_not_listed(self):
        program = Program(file('whole.hex'))
        self.assertEqual(program.rank('000201'), 1)
        self.assertNotEqual(str(program.kth(1)), '000201')
        self.assertEqual(program.rank('020100'), 3)
        self.assertIsNone(program.kth(3))

    def test_any_list(self):
        program = Program(LONGEST)
        member = program.kth(3 * 10 ** 15)
        self.assertEqual(program.rank(member.schedule), 3 * 10 ** 15)
        self.assertEqual(str(program.kth(LISTED - 1)), '050505050404040403030303020202020101010100000000')
        self.assertIsNone(program.kth(LISTED))
        # numbers that no word holds are not cut to one that it does
        self.assertIsNone(program.kth(2 ** 64))
        self.assertIsNone(program.kth(2 ** 64 + 5))

    def test_slices(self):
        text = '01\n' + '10000000000001\n' * 7 + '01\n' + '110000\n' * 7 + '23000000000001\n'
        program = Program(text)
        found = list(program.executions())
        for start, stop in [(0, None), (0, 3), (5, 5), (9, 4), (1020, 1030), (3431, None), (3432, None), (5000, 6000), (7, 2000)]:
            self.assertEqual(list(program.executions(start=start, stop=stop)), found[start:stop], (start, stop))
        pair = Program(PAIR, 'tso')
        self.assertEqual(list(pair.executions(start=1, stop=3)), list(pair.executions())[1:3])
        piece = list(Program(LONGEST).executions(start=LISTED - 2, stop=LISTED + 9))
        self.assertEqual([Program(LONGEST).rank(one.schedule) for one in piece], [LISTED - 2, LISTED - 1])

    def test_refused(self):
        program = Program(PAIR)
        with self.assertRaises(Refused) as caught:
            program.rank('00')
        self.assertEqual((caught.exception.subject, caught.exception.number, caught.exception.place), ('schedule', 21, 1))
        with self.assertRaises(Refused) as caught:
            program.rank('0007')
        self.assertEqual((caught.exception.number, caught.exception.place), (20, 1))
        for wrong in (lambda: program.kth(-1), lambda: program.executions(start=-1), lambda: program.sample(-1, 0),
                      lambda: program.executions(after='00000101', start=2), lambda: program.sample(1, -1),
                      lambda: program.sample(1, 2 ** 64)):
            self.assertRaises(ValueError, wrong)
        pair = Program(PAIR, 'tso')
        for wrong in (lambda: pair.kth(0), lambda: pair.rank('000001011011'), lambda: pair.sample(1, 0)):
            self.assertRaises(Unfit, wrong)


class Drawn(unittest.TestCase):
    def test_the_published_words(self):
        numbers = Numbers(1_234_567)
        self.assertEqual([numbers.word() for _ in range(3)],
                         [6457827717110365317, 3203168211198807973, 9817491932198370423])

    def test_sample_is_the_command_s(self):
        for name in ('queue-broken.hex', 'whole.hex'):
            for seed in (0, 7, 2 ** 63 + 1):
                told = answers('sample', f'examples/{name}', '20', '--seed', str(seed))
                found = Program(file(name)).sample(20, seed)
                self.assertEqual([(str(one), one.fails) for one in found],
                                 [(one['schedule'], one['fails']) for one in told[:-1]])
        drawn = Program(LONGEST).sample(3, 5)
        told = answers('sample', '-', '3', '--seed', '5', text=LONGEST.encode())
        self.assertEqual([str(one) for one in drawn], [one['schedule'] for one in told[:-1]])


if __name__ == '__main__':
    unittest.main()
