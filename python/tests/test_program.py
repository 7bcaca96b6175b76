"""What a program answers, beside the command's answers and the oracle's known ones."""
import itertools
import unittest
from pathlib import Path
from tempfile import TemporaryDirectory

from here import EXAMPLES, ROOT, answers, file, programs
from tarczolin import Count, Execution, Force, Program, Refused, TextError, Unfit

QUEUE = file('queue-broken.hex')
PAIR = file('store-load-pair.hex')


class Listing(unittest.TestCase):
    def test_executions_are_the_command_s(self):
        for name in programs():
            with self.subTest(name):
                found = [(str(one), one.fails) for one in Program.read(EXAMPLES / name).executions()]
                told = [(one['schedule'], one['fails']) for one in answers('list', f'examples/{name}') if 'schedule' in one]
                self.assertEqual(found, told)

    def test_pages_go_on(self):
        # 3,432 schedules and one more: more than three pages
        text = '01\n' + '10000000000001\n' * 7 + '01\n' + '110000\n' * 7 + '23000000000001\n'
        program = Program(text)
        found = list(program.executions())
        self.assertEqual(len(found), program.count().listed)
        self.assertEqual(len(found), len({one.schedule for one in found}))
        self.assertEqual(found, sorted(found, key=lambda one: one.schedule))
        behind = list(program.executions(after=found[1999].schedule))
        self.assertEqual(behind, found[2000:])
        self.assertEqual(list(program.executions(after=str(found[-1]))), [])

    def test_count(self):
        self.assertEqual(Program(QUEUE).count(), Count(listed=6, failing=3))
        self.assertEqual(Program(PAIR, 'tso').count(), (4, 0))
        self.assertEqual(Program(b'').count(), (1, 0))

    def test_memory_changes_no_answer(self):
        for name in programs():
            program = Program.read(EXAMPLES / name)
            told = program.count(), program.violation()
            for memory in (0, 7, 8, 1000, 1 << 20):
                self.assertEqual((program.count(memory), program.violation(memory=memory)), told, name)
        self.assertEqual(Program(PAIR, 'tso').count(memory=64), Program(PAIR, 'tso').count())

    def test_violation(self):
        found = Program(QUEUE).violation()
        self.assertEqual((str(found), found.fails), ('00000102020201', True))
        self.assertIsNone(Program(file('queue-repaired.hex')).violation())
        # an execution of no steps is one: that none fails is None alone
        self.assertEqual(str(Program('01\n23000000000001\n').violation()), '')
        self.assertTrue(Program('01\n23000000000001\n').violation())

    def test_total_store_order(self):
        program = Program(PAIR, 'tso')
        self.assertIn('000001011011', [str(one) for one in program.executions()])
        told = [one['schedule'] for one in answers('list', 'examples/store-load-pair.hex', '--model', 'tso') if 'schedule' in one]
        self.assertEqual([str(one) for one in program.executions()], told)

    def test_graph_and_class(self):
        program = Program(PAIR)
        self.assertEqual(program.graph('00000101'), '400001ffff\n4001010000\n41000000\n41010100\n')
        self.assertEqual(Program(file('whole.hex')).class_size('010002'), 2)
        whole = Program(file('whole.hex'))
        self.assertEqual(sum(one.size() for one in whole.executions()), Program(file('whole-without-02.hex')).count().listed)


class Asked(unittest.TestCase):
    def test_outcomes_are_the_command_s(self):
        cases = [(name, model) for name in programs() for model in ('sc', 'tso')]
        compared = 0
        for name, model in cases:
            told = answers('outcomes', f'examples/{name}', '--model', model)
            if 'error' in told[0]:
                continue
            with self.subTest(name=name, model=model):
                program = Program.read(EXAMPLES / name, model)
                found = [(one.memory, one.fails, str(one.first)) for one in program.outcomes()]
                self.assertEqual(found, [(one['memory'], one['fails'], one['schedule']) for one in told[:-1]])
                # the same as the ends without their registers, and whatever the memory that is lent
                firsts = {}
                for one in program.ends():
                    firsts.setdefault((tuple(one.memory.items()), one.fails), str(one.first))
                self.assertEqual([(tuple(memory.items()), fails) for memory, fails, _ in found], list(firsts))
                self.assertEqual([first for _, _, first in found], list(firsts.values()))
                self.assertEqual(program.outcomes(memory=0), program.outcomes())
                self.assertEqual([one.fails for one in program.outcomes()], [one.first.fails for one in program.outcomes()])
                compared += 1
        self.assertGreater(compared, 25)

    def test_outcomes_of_a_list_that_nobody_walks(self):
        program = Program(('01\n' + '1200000000000001\n' * 4) * 6)
        self.assertEqual(program.count().listed, 3246670537110000)
        (only,) = program.outcomes()
        self.assertEqual((only.memory, only.fails), ({'x0': 24}, False))

    def test_ends_are_the_command_s(self):
        cases = [(name, model) for name in programs() for model in ('sc', 'tso')]
        compared = 0
        for name, model in cases:
            told = answers('outcomes', f'examples/{name}', '--registers', '--model', model)
            if 'error' in told[0]:
                continue
            with self.subTest(name=name, model=model):
                found = Program.read(EXAMPLES / name, model).ends()
                keys = ['memory', 'registers', 'fails', 'listed', 'executions']
                self.assertEqual([[getattr(one, key) for key in keys] + [str(one.first)] for one in found],
                                 [[one[key] for key in keys] + [one['schedule']] for one in told[:-1]])
                compared += 1
        self.assertGreater(compared, 25)

    def test_outcomes_with_fences(self):
        for path in sorted((ROOT / 'tests' / 'litmus').glob('*mfence*.litmus')):
            text = answers('import-litmus', str(path))[0]['text']
            for model in ('sc', 'tso'):
                told = answers('outcomes', '-', '--registers', '--model', model, text=text.encode())
                found = Program(text, model).ends()
                # behind the outcomes stand the sums, and what the test expects
                self.assertEqual([(one.memory, one.registers) for one in found],
                                 [(one['memory'], one['registers']) for one in told if 'outcome' in one], path.name)
                self.assertIn('expectation', told[-1])

    def test_litmus_tests_are_read(self):
        for path in sorted((ROOT / 'tests' / 'litmus').glob('*.litmus')):
            for model in ('sc', 'tso'):
                with self.subTest(path=path.name, model=model):
                    told = answers('count', str(path), '--model', model)[0]
                    self.assertEqual(Program.read(path, model).count(), (told['listed'], told['failing']))
        with TemporaryDirectory() as folder, self.assertRaises(TextError) as caught:
            wrong = Path(folder) / 'wrong.litmus'
            wrong.write_text('X86 A\n{ }\n P0 ;\n XCHG [x],EAX ;\nexists (x=1)\n')
            Program.read(wrong)
        self.assertEqual((caught.exception.place, caught.exception.line), (4, ' XCHG [x],EAX ;'))

    def test_a_text_that_writes_itself(self):
        made = Program('def put(k) {\n  store x k\n}\nthread w * 2 alike\n  repeat 2 {\n    put(1)\n  }\nforbid x = 2\n')
        plain = Program('thread a\n  store x 1\n  store x 1\nthread b\n  store x 1\n  store x 1\nalike a b\n')
        frames = [[line for line in one.file.splitlines() if not line.startswith(b'#')] for one in (made, plain)]
        self.assertEqual(frames[0], frames[1])
        self.assertEqual(made.count(), plain.count())
        with self.assertRaises(TextError) as caught:
            Program('def put(k) {\n  stor x k\n}\nthread\n  put(1)\n')
        self.assertEqual((caught.exception.place, caught.exception.line), (2, '  stor x k'))

    def test_failed_threads(self):
        fails = [one for one in Program.read(EXAMPLES / 'queue-broken.asm').ends() if one.fails]
        told = [one['failures'] for one in answers('outcomes', 'examples/queue-broken.asm', '--registers')[:-1] if one['fails']]
        self.assertEqual(len(fails), 3)
        for one, (failure,) in zip(fails, told):
            ((thread, at),) = one.failed.items()
            self.assertTrue(failure.startswith(f'{thread}: ') and f'(instruction {at}, line ' in failure, failure)
        self.assertEqual(fails[0].registers['consumer.item'], 0)

    def test_judge(self):
        program = Program(PAIR)
        for one in program.executions():
            judged = program.judge(one.graph())
            self.assertTrue(judged)
            self.assertEqual(program.graph(judged.schedule), one.graph())
        no = program.judge('400001ffff\n400101ffff\n41000000\n41010100\n')
        self.assertFalse(no)
        self.assertEqual((no.possible, no.schedule), (False, None))
        # a graph of nothing is made by the schedule of no steps, and that is a yes
        self.assertTrue(Program(b'').judge(b''))

    def test_robust(self):
        found = Program(PAIR, 'tso').robust()
        self.assertFalse(found)
        self.assertEqual((str(found.execution), found.execution.fails), ('000001011011', False))
        self.assertEqual(found.execution.memory(), {'x0': 1, 'x1': 1})
        with self.assertRaises(ValueError):
            Program(PAIR).robust()
        for one in ('store-load-pair.hex', 'message-passing.asm', 'queue-broken.asm', 'queue-repaired.asm', 'whole.hex'):
            told = answers('robust', f'examples/{one}')[-1]
            with self.subTest(one):
                found = Program.read(EXAMPLES / one, 'tso').robust()
                self.assertEqual(told['robust'], bool(found))
                self.assertEqual(told.get('schedule'), found.execution and str(found.execution))

    def test_covers(self):
        added = Program('01\n1200000000000001\n01\n1200000000000001\n')
        loaded = Program(file('load-add-store.hex'))
        self.assertTrue(loaded.covers(added))
        found = added.covers(loaded)
        self.assertFalse(found)
        self.assertEqual((str(found.execution), found.execution.memory()), ('00010001', {'x0': 1}))

    def test_covers_by_name(self):
        old = Program('thread\n  store head 1\n  store tail 2\n')
        new = Program('thread\n  store tail 2\n  store head 1\n')
        self.assertTrue(old.covers(new))
        self.assertFalse(old.covers(new, by='number'))
        self.assertFalse(old.covers(Program('thread\n  store tail 1\n  store head 2\n')))
        with self.assertRaises(Unfit):
            old.covers(Program(file('whole.hex')))
        for one, other in itertools.product(['queue-broken.asm', 'queue-repaired.asm'], repeat=2):
            told = answers('covers', f'examples/{one}', f'examples/{other}')[0]
            if 'error' not in told:
                found = Program.read(EXAMPLES / one).covers(Program.read(EXAMPLES / other))
                self.assertEqual(found.covered, told['covered'])
                self.assertEqual(str(found.execution) if found.execution else None, told.get('schedule'))

    def test_covers_under_models(self):
        dekker = EXAMPLES / 'suite' / 'dekker.asm'
        strong, weak = Program.read(dekker), Program.read(dekker, 'tso')
        found = strong.covers(weak, under='sc,tso')
        self.assertFalse(found)
        self.assertEqual((str(found.execution), found.execution.fails), ('0000010110001101', True))
        self.assertEqual(found.execution.memory()['inside'], 2)
        self.assertTrue(weak.covers(strong, under='tso,sc'))
        self.assertTrue(weak.covers(weak, under='tso') and strong.covers(strong, under='sc,sc'))
        # another execution, and no other outcome
        self.assertTrue(Program(PAIR).covers(Program(PAIR, 'tso'), under='sc,tso'))
        self.assertFalse(Program(PAIR, 'tso').robust())
        for under in ('sc,tso', 'tso,sc', 'tso', 'sc'):
            told = answers('covers', str(dekker), str(dekker), '--under', under)[-1]
            models = under.split(',') if ',' in under else [under] * 2
            found = Program.read(dekker, models[0]).covers(Program.read(dekker, models[1]), under=under)
            self.assertEqual((found.covered, found.execution and str(found.execution)), (told['covered'], told.get('schedule')))
        # a program is asked about under its own model alone: the fences of the other are not in it
        with self.assertRaises(Unfit):
            strong.covers(strong, under='sc,tso')
        for wrong in ('x86', 'sc,tso,sc', 'sc,', ''):
            with self.assertRaises(ValueError):
                strong.covers(weak, under=wrong)

    def test_force(self):
        program = Program.read(EXAMPLES / 'queue-broken.asm')
        self.assertEqual(program.force(['first', 'second']), Force('hostile', 0))
        self.assertEqual(program.force([0, 1]), Force('hostile', 0))
        self.assertEqual([program.force([0, 1], memory=memory) for memory in (0, 1000)], 2 * [Force('hostile', 0)])
        self.assertEqual(program.force(['consumer']), Force('friendly', None))
        # a hostile side without a first step before the failure
        self.assertEqual(Program('01\n23000000000001\n').force([]), Force('hostile', None))
        with self.assertRaises(ValueError):
            program.force(['nobody'])
        with self.assertRaises(Refused) as caught:
            program.force([0, 5])
        self.assertEqual((caught.exception.number, caught.exception.place), (48, 5))

    def test_only_sequential_consistency(self):
        program = Program(PAIR, 'tso')
        for ask in (lambda: program.judge(b''), lambda: program.covers(program), lambda: program.force([0]),
                    lambda: Program(PAIR).covers(program)):
            with self.assertRaises(Unfit):
                ask()
        with self.assertRaises(ValueError):
            Program(PAIR, 'pso')

    def test_an_execution_is_a_value(self):
        program = Program(QUEUE)
        self.assertEqual(Execution(program, b'\x00', False), Execution(program, b'\x00', False))
        self.assertEqual(repr(Execution(program, b'\x00', False)), "Execution(schedule=b'\\x00', fails=False)")


if __name__ == '__main__':
    unittest.main()
