"""The package itself: what it exports, its types and sentences, the guide's lines, the library's names."""
import inspect
import re
import subprocess
import sys
import typing
import unittest

from here import ROOT
import tarczolin


def members():
    """Every public class and function, and their public methods."""
    for name in tarczolin.__all__:
        one = getattr(tarczolin, name)
        yield name, one
        if inspect.isclass(one):
            own = ((inner, value) for inner, value in vars(one).items() if not inner.startswith('_'))
            for inner, value in own:
                value = getattr(value, '__func__', getattr(value, 'fget', None) or getattr(value, 'func', None) or value)
                if inspect.isfunction(value):
                    yield f'{name}.{inner}', value


class Package(unittest.TestCase):
    def test_docstrings_and_types(self):
        found = 0
        for name, one in members():
            self.assertTrue(inspect.getdoc(one), name)
            if inspect.isfunction(one):
                given = typing.get_type_hints(one, vars(sys.modules[one.__module__]) | {'Program': tarczolin.Program})
                self.assertEqual(set(inspect.signature(one).parameters) - {'self', 'cls'} | {'return'}, set(given), name)
                found += 1
        self.assertGreater(found, 25)

    def test_version(self):
        header = (ROOT / 'include' / 'tarczolin.h').read_text(encoding='utf-8')
        self.assertIn(f'#define TARCZOLIN_VERSION "{tarczolin.__version__}"', header)

    def test_only_the_header_s_names_are_exported(self):
        header = (ROOT / 'include' / 'tarczolin.h').read_text(encoding='utf-8')
        declared = set(re.findall(r'^uint64_t (tarczolin_\w+)\(', header, re.M))
        said = subprocess.run(['nm', '--dynamic', '--defined-only', tarczolin.library_path()], capture_output=True, check=True)
        exported = {line.split()[-1] for line in said.stdout.decode().splitlines()}
        self.assertEqual(exported, declared)

    def test_the_guide_s_lines(self):
        guide = (ROOT / 'docs' / 'GUIDE.md').read_text(encoding='utf-8')
        shown = guide.split('```python\n')[1].split('```')[0]
        example = (ROOT / 'examples' / 'first.py').read_text(encoding='utf-8')
        self.assertEqual(shown, example)
        self.assertLessEqual(len(shown.splitlines()), 10)
        done = subprocess.run([sys.executable, 'examples/first.py'], cwd=ROOT, capture_output=True, check=True,
                              env={'PYTHONPATH': 'python', 'PATH': '/usr/bin:/bin'}, text=True)
        said = guide.split('```python\n')[1].split('```')[1]
        told = [line[4:] for line in said.split('\n\n')[1].splitlines() if line.startswith('    ')]
        self.assertEqual(done.stdout.splitlines(), told[1:])
        self.assertEqual(told[0], '$ PYTHONPATH=python python3 examples/first.py')


if __name__ == '__main__':
    unittest.main()
