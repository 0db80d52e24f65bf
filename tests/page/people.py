"""What a person does on the page: lessons, scripts, forms, pointing, steps, and all of it by the keyboard alone."""
import glob
import json
import os
import re
import subprocess

from browser import ActionChains, Keys, want

TEXTS = json.load(open('page/texts.json', encoding='utf-8'))
FORMS = ('fresh 40 200', 'reserve 0 3', 'put 0 0 one tablet', 'reserve 1 2', 'put 1 0 one', 'put 1 1 two', 'complete 1',
         'reserve 2 1', 'put 2 0 one', 'complete 2', 'pause 2', 'offer 3 2', 'save')


def commands_of(path):
    """The commands of a lesson, without what it expects."""
    with open(path, encoding='utf-8') as f:
        lines = [line.strip() for line in f]
    return [line for line in lines if line and not line.startswith('#') and not line.startswith('expect ')]


def lesson_ends(page, name):
    want(not page.all('#lesson .unmet'), f'{name}: {page.text("#lesson")}')
    want(page.text('#lesson .end') == TEXTS['lesson_end'], f'{name} ends with {page.text("#lesson")}')


def step_through(page, path):
    """A lesson from the course, step by step, with a guess wherever one is asked for."""
    name, given = os.path.splitext(os.path.basename(path))[0], []
    page.open(name)
    while page.all('#lesson .next'):
        given.append(page.text('#lesson .next'))
        guesses = page.all('#lesson .guess input')
        if guesses:
            guesses[len(given) % len(guesses)].click()
        page.click('#lesson .main')
        want(page.text('#lesson .result .command') == '> ' + given[-1], f'{name}: {given[-1]} is not shown')
        want(not guesses or page.all('#lesson .result p')[2:], f'{name}: {given[-1]}: nothing is said of the guess')
    want(given == commands_of(path), f'{name} made the steps {given}')
    lesson_ends(page, name)
    return len(given)


def lessons(page):
    paths = sorted(glob.glob('desk/lessons/*.txt'))
    page.open()
    page.tab('course')
    titles = [button.text for button in page.all('#course button')]
    want(len(titles) == len(paths), f'the course has {len(titles)} lessons of {len(paths)}')
    want(all(page.all('#course li p')[2 * i:2 * i + 2] for i in range(len(paths))), 'a lesson has no aim or no exercise')
    made = sum(step_through(page, path) for path in paths)
    return f'{len(paths)} lessons, {made} steps'


def leaving(page):
    """A lesson is left in its middle, and gone on with: the card is the one it had."""
    page.open('03-full-only-when-it-is')
    for _ in range(8):
        page.click('#lesson .main')
    card, step = page.text('#letters'), page.text('#lesson .progress')
    page.give('release 0')
    page.give('fresh 5 2')
    page.press(TEXTS['come_back'], '#lesson')
    want(page.text('#lesson .progress') == step, f'the lesson goes on at {page.text("#lesson .progress")}, and not at {step}')
    page.give('standing 0')
    want(page.text('#letters') == card, f'the card is {page.text("#letters")}, and was {card}')
    page.press(TEXTS['come_back'], '#lesson')
    page.press(TEXTS['step_back'], '#lesson')
    page.click('#lesson .main')
    want(page.text('#letters') == card and page.text('#lesson .progress') == step, 'a step back and on again is another card')
    page.press(TEXTS['to_end'], '#lesson')
    lesson_ends(page, 'a lesson that was left')


def scripts(page, out, bitwise, count):
    """Random scripts with what the independent ledger answers. With a wrong number they must fail."""
    path = os.path.join(out, 'script.txt')
    for seed in range(1, count + 1):
        script = subprocess.run([bitwise, 'desk', str(seed)], capture_output=True, text=True, check=True).stdout
        wrong = subprocess.run(['tests/desk/scripts.py', 'wrong'], input=script, capture_output=True, text=True, check=True)
        for text, end in ((script, 'lesson_end'), (wrong.stdout, 'lesson_failed'))[:2 if seed <= 3 else 1]:
            with open(path, 'w', encoding='utf-8') as f:
                f.write(text)
            page.open()
            page.tab('files')
            page.pick('#open-script', path)
            page.until(lambda: page.all('#lesson .next'), 'the script is not opened')
            page.press(TEXTS['to_end'], '#lesson')
            want(page.text('#lesson .end') == TEXTS[end], f'the script of seed {seed}: {page.text("#answer")}')
    return f'{count} random scripts'


def said_by_console(lines, desk, out):
    """What the console prints for these lines, each with its prompt."""
    with open(os.path.join(out, 'given.txt'), 'w', encoding='utf-8') as f:
        f.write('\n'.join(lines) + '\n')
    run = subprocess.run([os.path.abspath(desk), 'given.txt'], cwd=out, capture_output=True, text=True, check=False)
    return run.stdout


def parts(text):
    """Lines in any order: the page shows an answer's sentence first. Of a line that is wrong the console says which it was."""
    return sorted(re.sub(r'^line \d+: ', '', line.strip()) for line in text.splitlines() if line.strip())


def forms(page, desk, out):
    """Every button, and every use of its command, as each role: the form makes the command that it shows, and the page says
    what the console says."""
    made = sum(forms_of(page, role, desk, out) for role in ('pharmacist', 'carer', 'service'))
    return f'{made} forms'


def forms_of(page, role, desk, out):
    made = 0
    page.open()
    page.give('fresh 9 3')
    for line in FORMS:
        page.give(line)
    page.tab('calls')
    page.click('#role-' + role)
    for name in [button.get_attribute('name') for button in page.all('.calls button')]:
        page.click(f'.calls button[name={name}]')
        for use in range(len(page.all('#use option')) or 1):
            if use:
                page.script('const u = document.getElementById("use"); u.value = arguments[0]; u.onchange()', str(use))
            line = page.text('#form .preview')
            page.click('#form .main')
            want(page.text('#command').endswith('> ' + line), f'{line} was made {page.text("#command")}')
            made += 1
        for line in FORMS[1:] if name == 'fresh' and role == 'pharmacist' else ():
            page.give(line)
    same_as_console(page, desk, out)
    return made


def same_as_console(page, desk, out):
    """All that the page has said is what the console says to the same lines."""
    log = page.script('return document.getElementById("log").textContent')
    given = [line.split('> ', 1)[1] for line in log.splitlines() if re.match(r'^[a-z]*> ', line)]
    page_says, console_says = parts(log), parts(said_by_console(given, desk, out))
    want(page_says == console_says, f'the page says {set(page_says) - set(console_says)}, and the console '
         f'{set(console_says) - set(page_says)}')


def roles(page):
    """Each role is offered the calls of document 02's row (`cut` is a load). Any other can be made too, and is refused."""
    page.open()
    for role, calls in (('service', 'fresh standing survey close save load cut'), ('carer', 'show standing survey')):
        page.click('#role-' + role)
        mine = [button.text for button in page.all('#calls_mine button')]
        want(mine == calls.split(), f'{role} is offered {mine}')
    page.click('.calls button[name=put]')
    page.click('#form .main')
    want(page.text('#words').startswith('refused, 21'), f'a carer who puts is told {page.text("#words")}')
    want(page.text('#rows li.held').startswith(TEXTS['row_held'] + '21'), 'why does not name 21')


def pointing(page):
    """A block that is pointed at says what it holds; what the last command changed is marked."""
    page.open()
    for line in ('fresh 32 4', 'reserve 0 3', 'term 0 2026-11-02 2026-11-15 two tablets at 8', 'count 0 1 3 2.50'):
        page.give(line)
    marks = page.script('return document.querySelectorAll("#picture .mark").length')
    want(marks > 0, 'nothing is marked after a put')
    found = {}
    for block in range(4):
        x, y = page.script('''const d = document.querySelector("#picture svg").dataset;
            return [Number(d.left) + (arguments[0] + 0.5) * d.unit, Number(d.top) + d.height / 2]''', block)
        svg = page.one('#picture svg')
        x, y = x - svg.size['width'] / 2, y - svg.size['height'] / 2
        ActionChains(page.driver).move_to_element_with_offset(svg, x, y).perform()
        found[block] = page.text('#pointed')
        if block == 0:
            within = page.script('return document.querySelectorAll("#calendar .within").length')
            want(within == 14, f'the calendar marks {within} days')
    for block, words in enumerate((('sheet 0, Open', 'place 0', 'two tablets at 8', '2026-11-15'), ('place 1', '3: 2.50'),
                                   ('place 2', 'blank'), ('free',))):
        want(all(word in found[block] for word in words), f'block {block} says {found[block]}')
    page.give('undo')
    want(page.all('#picture .mark'), 'nothing is marked after undo')
    page.give('survey')
    want(not page.all('#picture .mark'), 'something is marked after a survey')


def steps(page):
    page.open()
    for line in ('fresh 8 4', 'reserve 0 2', 'reserve 1 2', 'reserve 2 2', 'pause 3'):
        page.give(line)
    page.tab('steps')
    page.press('reserve 1 2', '#steps')
    want(page.text('#letters').strip() == '[00......]', f'back before `reserve 1 2` the card is {page.text("#letters")}')
    page.give('cut')
    want('No image' in page.text('#answer') or 'saved' in page.text('#answer'), f'a cut says {page.text("#answer")}')


def keyboard(page):
    """From the first key on: a command, the picture, a form, and a lesson to its end."""
    page.open()
    page.keys(Keys.TAB, Keys.ENTER)
    want(page.script('return document.activeElement.id') == 'line', 'the first link does not lead to the command line')
    page.keys('reserve 0 3', Keys.ENTER)
    want(page.text('#words').startswith('done, 0: sheet 0'), f'typed: {page.text("#words")}')
    page.keys(Keys.ARROW_UP, Keys.ENTER)
    want(page.text('#words').startswith('refused, 7'), f'called back: {page.text("#words")}')
    seen = tab_until(page, 'document.activeElement.id === "card"')
    page.keys(Keys.HOME, Keys.ARROW_RIGHT)
    want('place 1' in page.text('#pointed'), f'the arrow keys point at {page.text("#pointed")}')
    page.keys(Keys.ENTER, '/')
    want(page.script('return document.activeElement.id') == 'line', 'the key / does not lead to the command line')
    seen |= tab_until(page, 'document.activeElement.id === "tab-calls"')
    seen |= tab_until(page, 'document.activeElement.name === "complete"')
    page.keys(Keys.ENTER)
    seen |= tab_until(page, 'document.activeElement.className === "main"')
    page.keys(Keys.ENTER)
    want(page.text('#command') == '> complete 0', f'the form made {page.text("#command")}')
    for _ in range(40):
        page.keys(Keys.SHIFT + Keys.TAB + Keys.SHIFT)
        if page.script('return document.activeElement.id') == 'tab-calls':
            break
    page.keys(Keys.ARROW_RIGHT)
    tab_until(page, 'document.activeElement.closest("#course") !== null')
    page.keys(Keys.ENTER)
    for _ in range(60):
        if not page.all('#lesson .next'):
            break
        page.keys(Keys.ENTER)
    lesson_ends(page, 'a lesson by the keyboard alone')
    return f'{len(seen)} controls by Tab'


def tab_until(page, holds):
    """Presses Tab until the focus is where it should be. Gives what had it on the way; each shows that it has."""
    seen = set()
    for _ in range(80):
        if page.script('return ' + holds):
            return seen
        page.keys(Keys.TAB)
        seen.add(page.script('const e = document.activeElement; return e.id + e.name + e.tagName'))
        ring = page.script('return getComputedStyle(document.activeElement).outlineStyle')
        want(ring != 'none' or page.script('return document.activeElement === document.body'), f'{seen} show no focus')
    want(False, f'Tab does not lead to {holds}, but to {seen}')
