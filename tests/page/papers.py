"""Files that the page writes and opens, what it prints, and a card of full size."""
import os
import subprocess

from browser import want
from people import TEXTS, said_by_console


def open_image(page, path):
    """Opens a file as an image. Gives what the card printer says of it, and the console."""
    page.tab('files')
    before = page.text('#command')
    page.give('survey')
    page.pick('#open-image', path)
    page.until(lambda: page.text('#command').startswith('> load'), f'{path} is not opened after {before}')
    return page.text('#printed'), page.text('#words')


def write(out, name, data):
    path = os.path.join(out, name)
    with open(path, 'wb') as f:
        f.write(data)
    return path


def images(page, out, desk, printer):
    page.open()
    lines = ['fresh 24 8', 'fresh 70 9', 'reserve 3 5', 'put 3 0 one tablet', 'pause 4', 'save card.img']
    for line in lines[1:-1]:
        page.give(line)
    page.tab('files')
    image = page.file('card.img', lambda: page.click('#save-image'))
    said_by_console(lines, desk, out)
    with open(os.path.join(out, 'card.img'), 'rb') as f:
        want(f.read() == image, 'the page saves another image than the console')
    wanted = subprocess.run([printer], input=image, capture_output=True, check=True).stdout.decode()
    text, words = open_image(page, write(out, 'again.img', image))
    want(text == wanted.strip() and words.startswith('done, 0'), f'a good image: {text}, {words}')
    changed = bytearray(image)
    changed[100] ^= 1
    huge = os.path.join(out, 'huge.img')
    with open(huge, 'wb') as f:
        f.truncate(300 << 20)
    cases = {'changed': (13, write(out, 'changed.img', bytes(changed))),
             'text': (12, write(out, 'a text.txt', b'a text\n')),
             'empty': (12, write(out, 'empty.img', b'')), 'short': (12, write(out, 'short.img', image[:-1])),
             'huge': (12, huge), 'zeros': (13, write(out, 'zeros.img', bytes(512)))}
    for name, (number, path) in cases.items():
        text, words = open_image(page, path)
        want(text.startswith(f'refused {number}\n\n') and TEXTS['remedy'] in text, f'{name}: the printer says {text}')
        want(words.startswith(f'refused, {number}: '), f'{name}: the console says {words}')
    page.give('standing 3')
    want('Open, start 0, length 5' in page.text('#words'), 'a refused image changed the card')
    os.remove(huge)
    return f'{len(cases) + 1} files'


def histories(page, out, desk):
    """A history is saved, is run by the console, and is opened again."""
    page.open()
    for line in ('fresh 12 4', 'reserve 0 3', 'role carer', 'release 0', 'role pharmacist', 'grow 0 2', 'undo', 'reserve 1 4'):
        page.give(line)
    page.give('standing 1')
    card = page.text('#letters')
    page.tab('files')
    script = page.file('card.txt', lambda: page.click('#save-script'))
    said = said_by_console(script.decode().splitlines(), desk, out)
    want(said.rstrip().endswith(card.strip()), f'the console ends with\n{said}\nand the page with {card}')
    page.pick('#open-script', write(out, 'again.txt', script))
    page.until(lambda: page.all('#lesson .next'), 'the history is not opened')
    page.press(TEXTS['to_end'], '#lesson')
    page.give('standing 1')
    want(page.text('#letters') == card, f'opened again the card is {page.text("#letters")}')
    page.tab('files')
    for name, data, words in (('long.txt', b'survey\n' * 200000, '1400000'), ('none.txt', b'\0\1\2', TEXTS['script_none'])):
        page.pick('#open-script', write(out, name, data))
        page.until(lambda expected=words: expected in page.text('#printed'), f'{name} is not refused in words')
    picture = page.file('card.svg', lambda: page.click('#save-picture'))
    want(picture.startswith(b'<svg') and b'A card of 12 blocks' in picture, 'the picture that is kept is no picture')


def paper(page):
    """What comes on paper: the card with its legend and sheets, and the numbers."""
    page.open()
    page.script('window.print = () => 0')
    page.give('reserve 0 3')
    page.tab('files')
    seen = 'return [...document.querySelectorAll(arguments[0])].some((e) => e.getClientRects().length > 0)'
    for button, there, away in (('card', ('#picture svg', '#legend svg', '#sheets li'), ('#tabs', '#typed', '#numbers')),
                                ('numbers', ('#numbers tr', ), ('#picture svg', '#sheets'))):
        page.tab('files')
        page.click('#print-' + button)
        page.look(1024, 768, media='print')
        for selector in there:
            want(page.script(seen, selector), f'{selector} is not printed with the {button}')
        for selector in away:
            want(not page.script(seen, selector), f'{selector} is printed with the {button}')
        page.look(1024, 768)
    rows = page.script('return document.querySelectorAll("#numbers tr").length')
    want(rows == 22, f'the page of numbers has {rows} numbers')


def large(page, out):
    """A card of full size: all its calls and pictures are quick. Gives the times, in milliseconds."""
    script = subprocess.run(['tests/desk/scripts.py', 'large'], capture_output=True, check=True).stdout
    page.open()
    page.tab('files')
    page.pick('#open-script', write(out, 'large.txt', script))
    page.until(lambda: page.all('#lesson .next'), 'the large script is not opened')
    page.press(TEXTS['to_end'], '#lesson')
    want('262144 blocks and 1024 sheets' in page.text('#heading'), f'the heading is {page.text("#heading")}')
    times = {}
    for line in ('reserve 0 100', 'put 0 0 one tablet', 'standing 0', 'survey', 'release 0', 'close', 'undo'):
        page.give(line)
        times[line.split()[0]] = page.call_time()
    want(all(ms < 1000 for ms in times.values()), f'calls on a card of full size take {times} ms')
    page.click('#nearer')
    page.click('#nearer')
    want('data-blocks="16384"' in page.script('return document.querySelector("#picture svg").outerHTML.slice(0, 400)'),
         'the card is not drawn closer')
    return times
