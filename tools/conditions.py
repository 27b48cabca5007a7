"""The words of the refusals, from their one home: the list `conditions` of crates/refusal_words/specs/Words.antt; and the examples of docs/REFUSALS.md. Used by tools/words,
tools/refusals and tools/defaults."""
import re
import sys
from pathlib import Path

ROOT = Path(__file__).resolve().parent.parent
HOME = ROOT / 'crates' / 'refusal_words' / 'specs' / 'Words.antt'
PAGE = ROOT / 'docs' / 'REFUSALS.md'
IN_WORDS = {12, 19, 20}  # whose examples there are told in words: 12 is tried over C, 19 and 20 by lessons/class.lesson
ROW = re.compile(r'^\| (\d+) \| (.+?) \| .+? \| (.+?) \| (.+?) \|$', re.M)


def conditions():
    """Number -> words, from 1 on."""
    found = re.search(r'^conditions =\n((?:    "[^"\n]+" ∷\n)+    "[^"\n]+" ∷ \[\]\n)', HOME.read_text(encoding='utf-8'), re.M)
    if not found:
        sys.exit(f'no list `conditions` in {HOME.relative_to(ROOT)}')
    return dict(enumerate(re.findall(r'"([^"]+)"', found.group(1)), start=1))


def examples():
    """The rows of docs/REFUSALS.md: number, words, an example that gets it, one that does not."""
    return [(int(number), *rest) for number, *rest in ROW.findall(PAGE.read_text(encoding='utf-8'))]


def quoted(cell):
    """The lessons that a cell of such a row has, the lines of each with a semicolon between them."""
    return re.findall(r'`([^`]+)`', cell)
