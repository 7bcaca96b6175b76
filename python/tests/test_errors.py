"""Refusals and errors: number, place and line."""
import os
import tempfile
import unittest
from unittest import mock

from here import ROOT, answers, file
from tarczolin import CommandMissing, Error, LibraryMissing, Program, Refused, TextError


class Refusals(unittest.TestCase):
    def refused(self, call):
        with self.assertRaises(Refused) as caught:
            call()
        error = caught.exception
        return error.subject, error.number, error.place, error.line

    def test_a_program_file(self):
        self.assertEqual(self.refused(lambda: Program(b'01\n110400\n')), ('program', 4, 2, '110400'))
        self.assertEqual(self.refused(lambda: Program('01\n110400\n')), ('program', 4, 2, '110400'))
        self.assertEqual(self.refused(lambda: Program(b'#' * 5000)), ('program', 1, 0, None))
        self.assertEqual(self.refused(lambda: Program(b'01')), ('program', 2, 1, '01'))
        self.assertEqual(self.refused(lambda: Program('01')), ('program', 2, 1, '01'))
        self.assertEqual(self.refused(lambda: Program(file('accesses-24.hex'), 'tso'))[:3], ('program', 41, 0))
        self.assertEqual(self.refused(lambda: Program(b'01\n\xff\n')), ('program', 2, 2, '\\xff'))

    def test_every_number_of_a_file_is_the_command_s(self):
        files = [b'01\n110400\n', b'zz\n', b'01\n1100\n', b'110000\n', b'01\n' * 7, b'01\n220000000000010f\n', b'01\n0200\n',
                 b'01\n030000000001\n', file('accesses-25-refused.hex')]
        numbers = []
        for one in files:
            told = answers('check', '-', text=one)[0]['error']
            with self.assertRaises(Refused) as caught:
                Program(one)
            self.assertEqual((caught.exception.number, caught.exception.place), (told['number'], told['place']))
            numbers.append(caught.exception.number)
        self.assertTrue({2, 3, 4, 5, 6, 7, 40} <= set(numbers), numbers)

    def test_a_schedule(self):
        program = Program(file('store-load-pair.hex'))
        self.assertEqual(self.refused(lambda: program.graph('0002')), ('schedule', 20, 1, None))
        self.assertEqual(self.refused(lambda: program.graph('00')), ('schedule', 21, 1, None))
        self.assertEqual(self.refused(lambda: program.class_size(b'')), ('schedule', 21, 0, None))
        with self.assertRaises(Refused) as caught:
            program.graph('0002')
        self.assertEqual(str(caught.exception), 'schedule: refusal 20 at step 1: the step names no thread, or one that cannot step there')
        with self.assertRaises(ValueError):
            program.graph('0')

    def test_a_graph(self):
        program = Program(file('store-load-pair.hex'))
        self.assertEqual(self.refused(lambda: program.judge('# a remark\n4000\n')), ('graph', 31, 2, '4000'))
        self.assertEqual(self.refused(lambda: program.judge(b'41080000\n')), ('graph', 32, 1, '41080000'))


class Texts(unittest.TestCase):
    def test_all_marks(self):
        text = 'thread\n  stor tail 1\n  assert n == 1\n'
        with self.assertRaises(TextError) as caught:
            Program(text)
        error = caught.exception
        self.assertEqual([(mark.line, mark.column) for mark in error.marks], [(2, 3), (3, 10)])
        self.assertEqual((error.number, error.place, error.line), (None, 2, '  stor tail 1'))
        self.assertIn('is it store?', str(error))

    def test_too_many_accesses_of_a_text(self):
        with self.assertRaises(Refused) as caught:
            Program('thread\n' + '  store x 1\n' * 9 + 'thread\n' + '  store x 1\n' * 9, 'tso')
        self.assertEqual(caught.exception.number, 41)

    def test_notes(self):
        program = Program('thread\n  store slot 7\n  n = load slto\n  fence\n')
        self.assertEqual([(note.kind, note.line, note.column) for note in program.notes], [('warning', 3, 12), ('note', None, None)])
        self.assertEqual(Program('thread\n  store x 1\n').notes, ())

    def test_fences_by_model(self):
        text = 'thread\n  store x 1\n  fence\n  n = load y\nthread\n  store y 1\n  fence\n  m = load x\n'
        self.assertNotIn(b'\n12', Program(text).file)
        fenced = Program(text, 'tso')
        self.assertIn(b'\n12', fenced.file)
        self.assertEqual(fenced.count().listed, 3)
        self.assertEqual(set(fenced.ends()[0].registers), {'T0.n', 'T1.m'})


class Missing(unittest.TestCase):
    def test_no_command(self):
        with mock.patch.dict(os.environ, TARCZOLIN_COMMAND='/nowhere/tarczolin'):
            with self.assertRaises(CommandMissing):
                Program('thread\n  fail\n')
            # a program file needs the library alone
            self.assertEqual(Program(file('queue-broken.hex')).count(), (6, 3))
            self.assertEqual(Program(file('queue-broken.hex').decode()).count(), (6, 3))

    def test_a_command_that_is_another(self):
        with mock.patch.dict(os.environ, TARCZOLIN_COMMAND='/bin/true'):
            with self.assertRaises(Error):
                Program('thread\n  fail\n')

    def test_no_library(self):
        with mock.patch.dict(os.environ, TARCZOLIN_LIBRARY='/nowhere/libtarczolin.so'):
            with self.assertRaises(LibraryMissing):
                Program(b'')

    def test_read(self):
        with tempfile.TemporaryDirectory() as folder:
            path = os.path.join(folder, 'no-suffix')
            with open(path, 'w', encoding='ascii') as text:
                text.write('thread\n  fail\n')
            self.assertEqual(Program.read(path).count(), (1, 1))
        with self.assertRaises(FileNotFoundError):
            Program.read(ROOT / 'examples' / 'nowhere.hex')


if __name__ == '__main__':
    unittest.main()
