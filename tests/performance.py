#!/usr/bin/env python3
"""performance.py [RECORDED ..]: the table of docs/PERFORMANCE.md, between its two marks.

Runs the programs `bench` and `walk`, shows what they print, and writes the rows that they print into the document, with the day,
the cores and the load of the machine when it began. With names of files these hold what was printed, and nothing is run. What stands
outside the marks stays. Where a program fails, a row is too long or a mark is missing nothing is written. `--into FILE` writes into
another document, and draws the picture beside it. With TEST_SHARE=N in the environment it takes an Nth of the rounds: a trial.
"""
import datetime
import os
import re
import subprocess
import sys
import textwrap
from pathlib import Path

ROOT = Path(__file__).resolve().parents[1]
DOCUMENT = ROOT / 'docs' / 'PERFORMANCE.md'
BEGIN = '<!-- make bench writes what follows -->\n'
END = '<!-- make bench writes what precedes -->\n'
HEADER = '| What | Library | Plain Rust | Ratio | Asked |\n|---|---|---|---|---|\n'
ROW = re.compile(r'\| [^|]+ \| [^|]+ \| [^|]+ \| [^|]+ \| [^|]*\|')
MOST = 110
RUN = ['cargo', 'run', '--quiet', '--release', '--offline', '--locked', '--package', 'tarczolin-tests', '--bin']


def ratio(cell):
    """A ratio as it is written: 0.85, or 1 / 525."""
    over, _, under = cell.replace(',', '').partition(' / ')
    return float(over) / float(under or 1)


def rows_of(printed):
    """The rows among the lines that were printed, in order."""
    return [line for line in printed.splitlines() if ROW.fullmatch(line)]


def missed(rows):
    """What is measured in the rows whose ratio is more than is asked for; how many are asked for."""
    cells = [[cell.strip() for cell in row.split('|')[1:-1]] for row in rows]
    asked = [(cell[0], ratio(cell[3]), ratio(cell[4])) for cell in cells if cell[4]]
    return [what for what, found, most in asked if found > most], len(asked)


def written(document, rows, when):
    """The document with these rows, and a sentence on when and where they were measured, between its marks."""
    if document.count(BEGIN) != 1 or document.count(END) != 1:
        raise ValueError('the document has not each of the two marks once')
    long = [row for row in rows if len(row) > MOST]
    if not rows or long:
        raise ValueError(f'{len(rows)} rows, of which these have more than {MOST} characters: {long}')
    over, asked = missed(rows)
    bounds = f'All {asked} bounds are met.' if not over else f'Of {asked} bounds {len(over)} are not met: {"; ".join(over)}.'
    bounds = textwrap.fill(bounds, MOST, break_on_hyphens=False)
    front, rest = document.split(BEGIN)
    end = rest.split(END)[1]
    return f'{front}{BEGIN}\n{when}\n{bounds}\n\n{HEADER}' + '\n'.join(rows) + f'\n\n{END}{end}'


def measured(document):
    """What both programs print, which is shown as it comes; the picture is drawn beside the document."""
    printed = ''
    told = {**os.environ, 'BENCH_PICTURE': str(document.resolve().parent / 'listing-time.svg')}
    for name in ('bench', 'walk'):
        with subprocess.Popen([*RUN, name], cwd=ROOT, env=told, stdout=subprocess.PIPE, encoding='utf-8') as process:
            for line in process.stdout:
                print(line, end='', flush=True)
                printed += line
        if process.returncode != 0:
            sys.exit(f'performance.py: {name} has failed, and nothing is written')
    return printed


def main(words):
    document = DOCUMENT
    if words[:1] == ['--into']:
        document, words = Path(words[1]), words[2:]
    day = datetime.date.today()
    when = f'Measured on {day.day} {day:%B %Y}, {os.cpu_count()} cores, at a load of {os.getloadavg()[0]:.1f} when it began.'
    printed = ''.join(Path(name).read_text(encoding='utf-8') for name in words) if words else measured(document)
    try:
        text = written(document.read_text(encoding='utf-8'), rows_of(printed), when)
    except ValueError as why:
        sys.exit(f'performance.py: {why}; nothing is written')
    document.write_text(text, encoding='utf-8')
    print(f'{len(rows_of(printed))} rows in {document.name}')


if __name__ == '__main__':
    main(sys.argv[1:])
