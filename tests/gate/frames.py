"""The stack that each call of the library takes at most, reckoned from the frames of its code, and what the header tells.

A frame is what a function pushes and takes off the stack pointer, what it uses below that (128 bytes, where it calls nobody), and the address
that it returns to. A call takes the frames along its deepest way. Functions that call each other in a circle are those of a search: a turn of
the circle is a step of the schedule, so a way makes at most so many turns as a schedule has steps, in all circles together, and enters one more
frame than it makes turns.

What the host's own memcpy and memset take is not in it.
"""
import re
import subprocess
from functools import lru_cache

HEADER = 'include/tarczolin.h'
LIBRARY = 'target/staticlib/libtarczolin.a'
# the most steps of a schedule, in either model
STEPS = {'sc': 24, 'tso': 32}
# a search that goes no deeper where one thread is left, since that runs to its end at once: two steps are never turns of it
RUNS_OUT = 'states_walk::seeking::'
# a search that asks first whether all have ended: of the frame that it enters behind the last step nobody is called
ENDS = 'tso_states::counting::'
# what the library calls of its host
OUTSIDE = {'memcpy', 'memset', 'memmove', 'memcmp', 'bcmp'}
# calls that may search under total store order; the others have code in common with them that could, and never do
OF_BOTH = ('tarczolin_tso_', 'tarczolin_robust', 'tarczolin_covers_models')

FUNCTION = re.compile(r'^[0-9a-f]+ <(.+)>:$')
RELOCATION = re.compile(r'R_X86_64_\w+\s+(?:\.text\.)?(\S+?)(?:[-+]0x[0-9a-f]+)?$')
INSTRUCTION = re.compile(r'^\s*[0-9a-f]+:\s+(\w+)\s*(.*)$')
ITSELF = re.compile(r' <([^>+]+)>$')
MOVED = re.compile(r'^\$0x([0-9a-f]+),%rsp$')
BELOW = re.compile(r'-0x([0-9a-f]+)\(%rsp[,)]')
# a frame of several pages is taken page by page, down to an address in %r11 that is reckoned before
FAR = re.compile(r'^\$0x([0-9a-f]+),%r11$')
TOLD = re.compile(r'^ \*\s+(\d+)\s+(tarczolin_\w.*)$')


def signed(hexadecimal):
    number = int(hexadecimal, 16)
    return number - (1 << 64) if number >> 63 else number


class Function:
    """What is read of a function, line by line: the bytes of its frame, and whom it calls."""

    def __init__(self, name):
        self.name, self.size, self.below, self.calls = name, 8, 0, set()
        self.word, self.far = '', None

    def refuse(self, rest):
        raise ValueError(f'the stack of {self.name} is not understood: {self.word} {rest}')

    def relocated(self, name):
        """The last instruction speaks of another function, or of a constant."""
        jumps = self.word in ('call', 'jmp')
        if jumps and name.startswith('.'):
            self.refuse(name)
        self.calls |= {name} if jumps or not name.startswith('.') else set()

    def instruction(self, word, rest):
        self.word = word
        self.below = max([self.below, *(int(number, 16) for number in BELOW.findall(rest))])
        moved, down, itself = MOVED.match(rest), FAR.match(rest), ITSELF.search(rest)
        if word == 'push':
            self.size += 8
        elif (word, rest) == ('mov', '%rsp,%r11'):
            self.far = 'next'
        elif word == 'sub' and down and self.far == 'next':
            self.size += signed(down[1])
            self.far = 'loop'
        elif word in ('sub', 'add') and moved:
            taken = signed(moved[1]) if word == 'sub' else -signed(moved[1])
            self.size += 0 if self.far == 'loop' else max(taken, 0)
            self.far = None
        elif word in ('enter', 'leave') or (word == 'call' and '*' in rest):
            self.refuse(rest)
        elif rest.endswith('%rsp') and word not in ('pop', 'cmp', 'test'):
            self.refuse(rest)
        elif word == 'call' and itself:
            self.calls.add(itself[1])

    def frame(self):
        if self.below > 128:
            raise ValueError(f'{self.name} uses {self.below} bytes below its stack')
        return self.size + self.below


def frames(listing):
    """Of a listing by objdump: the bytes of each function's frame, and the functions that it calls."""
    found, last = {}, None
    for line in listing.split('\n'):
        if start := FUNCTION.match(line):
            last = found[start[1]] = Function(start[1])
        elif last and (other := RELOCATION.search(line)):
            last.relocated(other[1])
        elif last and (one := INSTRUCTION.match(line)):
            last.instruction(one[1], one[2].strip())
    unknown = {name for f in found.values() for name in f.calls} - set(found) - OUTSIDE
    if unknown:
        raise ValueError(f'the library calls what is not in it: {", ".join(sorted(unknown))}')
    return {name: f.frame() for name, f in found.items()}, {name: f.calls - OUTSIDE for name, f in found.items()}


def circles(calls):
    """Each function's circle: those that it reaches and that reach it; none where it does not reach itself."""
    reached = {}
    for f in calls:
        seen, ahead = set(), list(calls[f])
        while ahead:
            g = ahead.pop()
            if g not in seen:
                seen.add(g)
                ahead += calls[g]
        reached[f] = seen
    return {f: frozenset(g for g in reached[f] if f in reached[g]) for f in calls}


def turn(circle, size, calls):
    """The most that a turn of a circle takes: the frames of its functions, each once."""
    most = 0
    for first in circle:
        ways = [(first, frozenset([first]), size[first])]
        while ways:
            f, seen, bytes_ = ways.pop()
            for g in calls[f] & circle:
                if g == first:
                    most = max(most, bytes_)
                elif g not in seen:
                    ways.append((g, seen | {g}, bytes_ + size[g]))
    return most


def needs(listing):
    """The most bytes of stack that each exported call takes, itself and its return address included."""
    size, calls = frames(listing)
    circle_of = circles(calls)
    turns = {circle: turn(circle, size, calls) for circle in set(circle_of.values()) if circle}

    @lru_cache(maxsize=None)
    def most(f, left, stores):
        circle = circle_of[f]
        beyond = {g for h in (circle or {f}) for g in calls[h] if g not in circle and (stores or not g.startswith('tso_'))}

        def behind(made):
            return max((most(g, left - made, stores) for g in beyond), default=0)

        if not circle:
            return size[f] + behind(0)
        deepest = left if f.startswith('tso_') else max(min(left, STEPS['sc']) - 2 * f.startswith(RUNS_OUT), 0)
        last = max(size[f], behind(deepest)) if f.startswith(ENDS) and deepest else size[f] + behind(deepest)
        return max(size[f] + behind(0), deepest * turns[circle] + last)

    def of_call(f):
        stores = f.startswith(OF_BOTH)
        return most(f, STEPS['tso' if stores else 'sc'], stores)

    return {f: of_call(f) for f in sorted(size) if f.startswith('tarczolin_')}


def told(header):
    """What the header tells of each call."""
    lines = [match for match in map(TOLD.match, header.split('\n')) if match]
    return {name: int(match[1]) for match in lines for name in re.findall(r'tarczolin_\w+', match[2])}


def compared(need, tell):
    said = [f'the header tells no stack of {name}' for name in need if name not in tell]
    said += [f'the library has no {name}, whose stack the header tells' for name in tell if name not in need]
    return said + [f'{name} can take {need[name]} bytes of stack, and the header tells {tell[name]}'
                   for name in need if name in tell and tell[name] < need[name]]


def listed(root):
    words = ['objdump', '-dr', '--no-show-raw-insn', str(root / LIBRARY)]
    return subprocess.run(words, capture_output=True, text=True, check=True).stdout


def said(root):
    """What is wrong: calls that can take more stack than the header tells."""
    return compared(needs(listed(root)), told((root / HEADER).read_text(encoding='utf-8')))


SAMPLE = """
0000000000000000 <tarczolin_one>:
   0:	push   %rbx
   1:	mov    %rsp,%r11
   4:	sub    $0x2400,%r11
   b:	sub    $0xc00,%rsp
  12:	movq   $0x0,(%rsp)
  1a:	cmp    %r11,%rsp
  1d:	jne    b <tarczolin_one+0xb>
  1f:	sub    $0x10,%rsp
  23:	call   28 <tarczolin_one+0x28>
			24: R_X86_64_PLT32	.text.walk::behind-0x4
  28:	call   2d <tarczolin_one+0x2d>
			29: R_X86_64_PLT32	.text.tso_walk::walk-0x4
0000000000000000 <walk::behind>:
   0:	sub    $0x18,%rsp
   4:	call   9 <walk::behind+0x9>
			5: R_X86_64_PLT32	.text.walk::with-0x4
0000000000000000 <walk::with>:
   0:	call   5 <walk::with+0x5>
			1: R_X86_64_PLT32	.text.walk::behind-0x4
   5:	jmp    a <walk::leaf>
			6: R_X86_64_PLT32	.text.walk::leaf-0x4
0000000000000000 <walk::leaf>:
   0:	add    $0xffffffffffffff80,%rsp
   4:	mov    %rax,-0x38(%rsp)
   9:	sub    $0xffffffffffffff80,%rsp
0000000000000000 <tso_walk::walk>:
   0:	sub    $0x10000,%rsp
   7:	call   0 <tso_walk::walk>
0000000000000000 <tarczolin_tso_two>:
   0:	jmp    5 <tarczolin_tso_two+0x5>
			1: R_X86_64_PLT32	.text.tso_states::counting::behind-0x4
0000000000000000 <tso_states::counting::behind>:
   0:	push   %rbx
   1:	call   0 <tso_states::counting::behind>
   6:	call   b <tso_states::counting::behind+0xb>
			7: R_X86_64_PLT32	.text.walk::leaf-0x4
0000000000000000 <tarczolin_three>:
   0:	jmp    5 <tarczolin_three+0x5>
			1: R_X86_64_PLT32	.text.states_walk::seeking::first_behind-0x4
0000000000000000 <states_walk::seeking::first_behind>:
   0:	push   %rbx
   1:	call   0 <states_walk::seeking::first_behind>
"""


def wrong_sample():
    """The sample is reckoned rightly: a frame of three pages, 24 turns of two functions and one frame more, and a leaf; no walk under total store
    order; 32 turns and a leaf, and 22 turns and one frame more. What is not understood is refused."""
    leaf = 128 + 8 + 0x38
    one = (8 + 8 + 0x2400 + 0x10) + 24 * (0x18 + 8 + 8) + (0x18 + 8) + leaf
    right = {'tarczolin_one': one, 'tarczolin_three': 8 + 22 * 16 + 16, 'tarczolin_tso_two': 8 + 32 * 16 + leaf}
    found = needs(SAMPLE)
    if found != right:
        return [f'frames.py reckons {found} of its sample, and {right} is right']
    if not compared(found, right | {'tarczolin_one': one - 1}) or compared(found, right):
        return ['frames.py compares its sample wrongly']
    strange = ('and    $0xffffffffffffffc0,%rsp', 'lea    -0x6000(%rsp),%r11', 'call   *%rax', 'mov    %rax,-0x90(%rsp)', 'sub    %rax,%rsp')
    return [f'frames.py passes over {line}' for line in strange if not refused(SAMPLE.replace('push   %rbx', line))]


def refused(listing):
    try:
        needs(listing)
    except ValueError:
        return True
    return False
