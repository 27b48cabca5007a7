"""Marked blocks of the docs: what a tool lists in a page stands between two lines, and the tool checks it or writes it anew.

    <!-- listed by tools/NAME: begin -->
    ..
    <!-- listed by tools/NAME: end -->

Used by tools/edits, tools/trust and tools/code_rows.
"""
import sys
from pathlib import Path

ROOT = Path(__file__).resolve().parent.parent


def split(page, tool):
    """A page as three texts: up to the block, the block, from its end on. The marks stay with the first and the last."""
    begin, end = (f'<!-- listed by tools/{tool}: {word} -->\n' for word in ('begin', 'end'))
    text = page.read_text(encoding='utf-8')
    if text.count(begin) != 1 or text.count(end) != 1 or text.index(end) < text.index(begin):
        sys.exit(f'{tool}: {page.relative_to(ROOT)} has not the two marks "listed by tools/{tool}"')
    at, to = text.index(begin) + len(begin), text.index(end)
    return text[:at], text[at:to], text[to:]


def listed(page, tool):
    """The block of a tool in a page."""
    return split(page, tool)[1]


def write(page, tool, block):
    """Puts a block in place of the one that is there."""
    before, _, after = split(page, tool)
    page.write_text(before + block + after, encoding='utf-8')


def run(tool, page, block, usage):
    """What `tools/NAME check` and `tools/NAME write` do with the block that `block()` finds; gives that block."""
    if sys.argv[1:] not in (['check'], ['write']):
        sys.exit(usage)
    found = block()
    there = listed(page, tool)
    if sys.argv[1] == 'write':
        write(page, tool, found)
    elif there != found:
        differing = sorted(set(there.splitlines()) ^ set(found.splitlines()))
        sys.exit(f'{tool}: {page.relative_to(ROOT)} does not say what is found (tools/{tool} write mends it):\n' + '\n'.join(differing))
    return found
