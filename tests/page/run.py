#!/usr/bin/env python3
"""Runs the page in a browser as a person would. tests/page/run starts this.

    tests/page/run.py PAGE OUT DESK PRINTER BITWISE SCRIPTS

OUT is a folder for what is written, SCRIPTS how many random scripts are run."""
import os
import sys
import time

sys.dont_write_bytecode = True
sys.path.insert(0, os.path.dirname(os.path.realpath(__file__)))

import looks
import papers
import people
from browser import Failed, Page, want

PICTURES = 'page/pictures'


def first(page):
    """The time from the beginning of loading to the first picture, as the page itself has it: the least of three."""
    times = []
    for _ in range(3):
        page.open()
        times.append(int(page.script('return document.documentElement.dataset.ready')))
    want(page.all('#picture svg rect'), 'there is no picture')
    want(min(times) < 3000, f'the first picture takes {times} ms')
    return f'first picture after {min(times)} ms'


def drawn(page, out):
    """The pictures that are kept are what is drawn."""
    for name, width in (('card-1024.png', 1024), ('card-390.png', 390)):
        page.look(width, 844)
        page.open()
        with open('desk/pictures/small.txt', encoding='utf-8') as f:
            for line in filter(str.strip, f):
                page.give(line.strip())
        page.give('survey')
        looks.compare(page, name, PICTURES, out)
    for name, width, height, dark in (('class.png', 1024, 768, False), ('phone.png', 390, 844, True)):
        page.look(width, height, dark)
        page.open('01-unfinished-is-no-pause')
        for _ in range(6):
            page.click('#lesson .main')
        page.script('scrollTo(0, 0)')
        looks.compare_whole(page, name, PICTURES, out)
    page.look(1024, 768)


def main(words):
    path, out, desk, printer, bitwise, count = words
    page = Page(path, os.path.join(out, 'kept'))
    page.look(1024, 768)
    tests = [('the first picture', lambda: first(page)), ('lessons', lambda: people.lessons(page)),
             ('a lesson that is left', lambda: people.leaving(page)),
             ('random scripts', lambda: people.scripts(page, out, bitwise, int(count))),
             ('forms', lambda: people.forms(page, desk, out)), ('roles', lambda: people.roles(page)),
             ('pointing', lambda: people.pointing(page)), ('steps', lambda: people.steps(page)),
             ('the keyboard alone', lambda: people.keyboard(page)),
             ('images', lambda: papers.images(page, out, desk, printer)),
             ('histories', lambda: papers.histories(page, out, desk)), ('paper', lambda: papers.paper(page)),
             ('widths and contrast', lambda: (page.open(), page.give('complete 0'), looks.fits(page))[2]),
             ('pictures', lambda: drawn(page, out)), ('a card of full size', lambda: papers.large(page, out))]
    failed = 0
    for name, test in tests:
        began = time.time()
        try:
            more = test()
            wrong = page.errors()
            want(not wrong, f'the browser says {wrong}')
            print(f'  {name}: passed ({time.time() - began:.0f} s){f": {more}" if more else ""}', flush=True)
        except Failed as failure:
            failed += 1
            print(f'  {name}: FAILED: {failure}', flush=True)
            page.driver.save_screenshot(os.path.join(out, f'failed-{failed}.png'))
    page.quit()
    sys.exit(1 if failed else 0)


if len(sys.argv) != 7:
    sys.exit(__doc__)
main(sys.argv[1:])
