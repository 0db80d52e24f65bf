#!/usr/bin/env python3
"""Puts the page together: one file with all that it needs.

    page/assemble.py CONSOLE.wasm PRINTER.wasm OUT

Texts are from page/texts.json, the course from page/course.json, the lessons from desk/lessons, the numbers with cause and
remedy from docs/NUMBERS.md."""
import base64
import json
import pathlib
import re
import sys

HERE = pathlib.Path(__file__).resolve().parent
ROOT = HERE.parent


def numbers():
    """The rows of the table: number, name, what it says, cause, remedy."""
    rows = re.findall(r'^\| (\d+) `(\w+)` \|(.*)\|(.*)\|(.*)\|$', (ROOT / 'docs/NUMBERS.md').read_text(), re.M)
    return [[number, name, *(cell.strip().replace('`', '') for cell in cells)] for number, name, *cells in rows]


def lessons():
    return {path.stem: path.read_text() for path in sorted((ROOT / 'desk/lessons').glob('*.txt'))}


def as_script(value):
    """JSON as it may stand in a script of a page."""
    return json.dumps(value, ensure_ascii=False).replace('<', '\\u003c')


def main(words):
    if len(words) != 3:
        sys.exit(__doc__)
    texts = json.loads((HERE / 'texts.json').read_text())
    data = {'T': texts, 'COURSE': json.loads((HERE / 'course.json').read_text()), 'NUMBERS': numbers(), 'LESSONS': lessons()}
    for name, path in (('CONSOLE', words[0]), ('PRINTER', words[1])):
        data[name] = base64.b64encode(pathlib.Path(path).read_bytes()).decode()
    page = (HERE / 'page.in.html').read_text()
    page = re.sub(r'\{\{(\w+)\}\}', lambda found: texts[found[1]].replace('&', '&amp;').replace('"', '&quot;'), page)
    page = re.sub(r'^@([a-z.]+)@$|@(style\.css)@', lambda found: part(found[1] or found[2], data), page, flags=re.M)
    pathlib.Path(words[2]).write_text(page)


def part(name, data):
    if name == 'data':
        return '\n'.join(f'const {key} = {as_script(value)};' for key, value in data.items())
    return (HERE / name).read_text().strip()


main(sys.argv[1:])
