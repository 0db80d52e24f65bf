"""The tables of docs/PROMISES.md: no cell that is too long, no line without an edit or a reason, no edit that no line names."""
import re

from cited.text import blocks

PAGE = 'docs/PROMISES.md'
COLUMN = 'Must-fail edit'
WHY = 'none: '
CHARACTERS = 300


def promises(sources):
    named = set()
    found = []
    for block in blocks(PAGE, sources.text(PAGE)):
        if block.heading and CHARACTERS < len(block.text):
            found.append((PAGE, block.first, f'a cell of {len(block.text)} characters'))
        if block.heading == COLUMN:
            if not block.text.removeprefix(WHY.rstrip()).strip():
                found.append((PAGE, block.first, 'neither a must-fail edit nor a reason why there is none'))
            named.update(item.strip() for item in block.text.split(','))
    for path in sources.files:
        edit = re.fullmatch(r'crates/(\w+)/must-fail/(\w+)\.edit', path)
        if edit and '/'.join(edit.groups()) not in named:
            found.append((PAGE, 1, f'no line names the must-fail edit {"/".join(edit.groups())}'))
    return found
