"""Edits that must be refused name an input, a wrong answer and the right one: the right one is the library's own.

Remarks that speak of an inner function, of what a record holds or of definitions alone are passed over, and counted. `make edits` runs the programs
with the edits in them and holds the wrong answers to these.
"""
import unittest
from ctypes import byref, c_uint64

from here import ROOT
from remarks import Got, remarks, steps
from tarczolin._library import ANSWERED, CALLERS, NOBODY, CallerRecord, call, room, scratch


def library(request):
    """What the library answers."""
    out, numbers = room(request.room), (c_uint64(), c_uint64())
    name = request.name.removeprefix('tso_')
    lent = {
        'check': (), 'count': map(byref, numbers), 'kth': (request.number, out, scratch(64)), 'class': (request.second,),
        'rank': (request.second, byref(numbers[0]), scratch(64)), 'force': (request.number,), 'outcomes': (request.number, out, scratch(64)),
        'rows_after': (request.second, out),
        'judge': (request.second, out), 'covers': (request.second, out), 'graph': (request.second, out), 'continue': (request.second, out),
    }.get(name, (out,))
    if request.models:
        one, other = request.models
        answer = call(request.name, one, request.file, other, request.second, out, scratch(64))
    else:
        answer = call(request.name, request.file, *lent)
    return Got(answer, out.raw, tuple(number.value for number in numbers))


def shared(remark):
    """What the last of the calls on four records answers."""
    records, last = (CallerRecord * CALLERS)(), c_uint64(NOBODY)
    for request in remark.calls():
        out = room(request.room)
        lent = {'serve': (out,), 'ask': (request.number,), 'close': (request.number,)}.get(request.name, (request.number, request.file))
        answer = call(request.name, records, byref(last), *lent)
    return Got(answer, out.raw, ())


def right_of(remark):
    """The right answer in the words of remarks."""
    if remark.asked == 'listed':
        return is_listed(remark)
    return remark.words(shared(remark) if remark.asked == 'records' else library(remark.request()))


def is_listed(remark):
    """A schedule is listed if start gives it, or continue from all that are smaller comes to it."""
    schedule = steps(remark.found['steps'])
    got = library(remark.request())
    while got.answer.kind == ANSWERED and got.out[:got.answer.value] < schedule:
        got = library(remark.request()._replace(name=f'{remark.tso}continue', second=got.out[:got.answer.value]))
    listed = got.answer.kind == ANSWERED and got.out[:got.answer.value] == schedule
    return {'that it is listed' if listed else 'that it is not listed'}


class Edits(unittest.TestCase):
    def test_right_answers(self):
        known, others = remarks()
        for remark in known:
            with self.subTest(path=str(remark.path.relative_to(ROOT)), remark=remark.found):
                self.assertIn(remark.found['right'], right_of(remark))
        self.assertGreater(len(known), 210, f'{len(others)} passed over')


if __name__ == '__main__':
    unittest.main()
