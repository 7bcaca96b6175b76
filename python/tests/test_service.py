"""Four callers on one explorer, from Python."""
import ctypes
import re
import threading
import unittest

from here import EXAMPLES, ROOT, file
from tarczolin import Program, Refused, Served, Service, Unfit
from tarczolin import _library

QUEUE, WHOLE = file('queue-broken.hex'), file('whole.hex')


class Callers(unittest.TestCase):
    def refused(self, call):
        with self.assertRaises(Refused) as caught:
            call()
        return caught.exception.number

    def test_two_people(self):
        service = Service()
        service.open(0, QUEUE)
        service.open(2, Program(WHOLE))
        service.ask(0)
        service.ask(2)
        self.assertEqual(service.serve(), Served(0, bytes.fromhex('00000101020202')))
        self.assertEqual(service.serve(), (2, bytes.fromhex('000102')))
        self.assertIsNone(service.serve())
        self.assertEqual([service.count(caller) for caller in range(4)], [1, 0, 1, 0])

    def test_the_whole_list_and_no_more(self):
        service = Service()
        service.open(3, Program.read(EXAMPLES / 'queue-broken.asm'))
        given = []
        while True:
            service.ask(3)
            served = service.serve()
            self.assertEqual(served.caller, 3)
            if served.schedule is None:
                break
            given.append(served.schedule)
        self.assertEqual(given, [one.schedule for one in Program(QUEUE).executions()])

    def test_an_empty_schedule_is_no_end(self):
        service = Service()
        service.open(0, b'')
        service.ask(0)
        self.assertEqual(service.serve(), (0, b''))
        service.ask(0)
        self.assertEqual(service.serve(), (0, None))

    def test_marks(self):
        service = Service()
        service.open(0, WHOLE)

        def next_one():
            service.ask(0)
            return service.serve().schedule.hex()

        self.assertEqual(next_one(), '000102')
        service.set(0, 'm')
        self.assertEqual(next_one(), '010002')
        service.return_to(0, b'm')
        self.assertEqual(next_one(), '010002')
        service.forget(0, 'm')
        self.assertEqual(self.refused(lambda: service.return_to(0, 'm')), 46)
        self.assertEqual(self.refused(lambda: service.set(0, 'nine bytes')), 45)
        for name in range(8):
            service.set(0, bytes([name]))
        self.assertEqual(self.refused(lambda: service.set(0, 'm')), 47)

    def test_refusals(self):
        service = Service()
        for caller in (4, -1, 1 << 64, (1 << 64) + 1):
            self.assertEqual(self.refused(lambda: service.ask(caller)), 42)
            self.assertEqual(self.refused(lambda: service.count(caller)), 42)
        self.assertEqual(self.refused(lambda: service.ask(1)), 44)
        service.open(1, QUEUE)
        self.assertEqual(self.refused(lambda: service.open(1, QUEUE)), 43)
        service.close(1)
        self.assertEqual(self.refused(lambda: service.close(1)), 44)
        with self.assertRaises(Refused) as caught:
            service.open(1, b'01\n110400\n')
        self.assertEqual((caught.exception.number, caught.exception.place, caught.exception.line), (4, 2, '110400'))
        with self.assertRaises(Unfit):
            service.open(1, Program(QUEUE, 'tso'))

    def test_threads_share_it(self):
        service, given = Service(), [[] for _ in range(4)]

        def host():
            while any(len(one) < 6 for one in given):
                served = service.serve()
                if served and served.schedule is not None:
                    given[served.caller].append(served.schedule)

        def caller(number):
            service.open(number, QUEUE)
            while len(given[number]) < 6:
                service.ask(number)

        threads = [threading.Thread(target=host)] + [threading.Thread(target=caller, args=(number,)) for number in range(4)]
        for thread in threads:
            thread.start()
        for thread in threads:
            thread.join()
        listed = [one.schedule for one in Program(QUEUE).executions()]
        for one in given:
            self.assertEqual(one[:6], listed)


class Header(unittest.TestCase):
    def setUp(self):
        self.header = (ROOT / 'include' / 'tarczolin.h').read_text(encoding='utf-8')

    def test_records(self):
        self.assertEqual(ctypes.sizeof(_library.CallerRecord), 4448)
        self.assertEqual(ctypes.sizeof(_library.MarkRecord), 35)
        for struct, record in (('mark', _library.MarkRecord), ('caller', _library.CallerRecord)):
            body = self.header.split(f'struct tarczolin_{struct} {{')[1].split('\n};')[0]
            fields = re.findall(r'(\w+)(?:\[\w+\])?;\s*/\* at +(\d+)', body)
            self.assertEqual([(name, getattr(record, name).offset) for name, _ in record._fields_],
                             [(name, int(at)) for name, at in fields])

    def test_calls(self):
        declared = re.findall(r'^uint64_t tarczolin_(\w+)\((.*)\);$', self.header, re.M)
        self.assertEqual(sorted(name for name, _ in declared), sorted(_library.CALLS))
        for name, arguments in declared:
            self.assertEqual(len(arguments.split(',')), len(_library.CALLS[name]), name)

    def test_constants(self):
        for name in ('FILE', 'SCHEDULE', 'GRAPH', 'TSO_SCHEDULE', 'CALLERS', 'NOBODY', 'MARKS'):
            self.assertIn(f'#define TARCZOLIN_{name} {getattr(_library, name)}\n', self.header)


if __name__ == '__main__':
    unittest.main()
