"""What the tests share: where things are, and the command's own answers."""
import json
import subprocess
import sys
from pathlib import Path

ROOT = Path(__file__).resolve().parents[2]
sys.path.insert(0, str(ROOT / 'python'))
EXAMPLES = ROOT / 'examples'

from tarczolin.text import command_path  # noqa: E402


def file(name):
    """The content of an example."""
    return (EXAMPLES / name).read_bytes()


def answers(*words, text=b''):
    """The objects that the command answers by, notes left out."""
    done = subprocess.run([command_path(), *words, '--json'], input=text, capture_output=True, check=False, cwd=ROOT)
    objects = [json.loads(line) for line in done.stdout.splitlines()]
    return [one for one in objects if 'notes' not in one]


def programs():
    """Every accepted program file of the examples, and every text of theirs that is soon listed."""
    names = [path.name for path in sorted(EXAMPLES.glob('*.hex')) if 'refused' not in path.name]
    return [name for name in names + ['queue-broken.asm', 'queue-repaired.asm', 'message-passing.asm'] if name not in TOO_LONG]


# lists of minutes
TOO_LONG = ['accesses-24.hex', 'six-stores.hex', 'long.asm']
