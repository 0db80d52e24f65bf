#!/usr/bin/env python3
"""The console on a terminal, as somebody who types sees it.

    tests/desk/terminal.py shown PROGRAM     types the lines of a run from standard input, and looks whether it prints that run
    tests/desk/terminal.py edited PROGRAM    edits a line, and calls one back
    tests/desk/terminal.py lessons PROGRAM   every lesson of desk/lessons with its stops, on a narrow terminal
    tests/desk/terminal.py stops PROGRAM     what can be typed where a lesson has stopped
    tests/desk/terminal.py ctrl-c PROGRAM    Ctrl-C at a line, at a stop, and while a file is waited for
    tests/desk/terminal.py history PROGRAM   a history written to a file, and the file run again
"""
import fcntl
import glob
import os
import pty
import re
import struct
import subprocess
import sys
import tempfile
import termios
import time

CTRL_C = '\x03'
READ, PSELECT, OPEN = '0', '270', '257'
STOP = 'leave: end the script> '
LESSON = 'desk/lessons/03-full-only-when-it-is.txt'
PROMPT = re.compile(r'\n([a-z]+( [0-9]+)?)?> $|' + re.escape(STOP) + '$')


def fail(text):
    sys.exit(f'tests/desk/terminal.py: {text}')


class Terminal:
    """The console with these arguments, on a terminal of this width. What it prints is in `printed`, without what moves a
    cursor."""

    def __init__(self, program, *words, columns=0, lines=0):
        with open(program, 'rb') as f:
            self.edits = b'libedit' in f.read()
        self.printed = ''
        self.child, self.end = pty.fork()
        if self.child == 0:
            os.environ['TERM'] = 'dumb'
            time.sleep(0.05)  # until the width is set
            os.execv(program, [program, *words])
        fcntl.ioctl(self.end, termios.TIOCSWINSZ, struct.pack('HHHH', lines, columns, 0, 0))
        self.read_on()

    def read_part(self):
        """Some more of what is printed, or nothing where the console has ended."""
        try:
            part = os.read(self.end, 4096)
        except OSError:
            part = b''
        return part.decode()

    def read_on(self):
        """Until the console waits for a line or has ended. libedit prints its prompt before it takes the echo over from the
        terminal: what is typed in between would be seen twice."""
        said = ''
        while not PROMPT.search(said):
            part = self.read_part()
            if not part:
                break
            said = re.sub(r'\x1b\[[0-9;?]*[A-Za-z]|\x1b[=>]|\r', '', said + part)
        while self.edits and PROMPT.search(said) and termios.tcgetattr(self.end)[3] & termios.ECHO:
            time.sleep(0.01)
        self.printed += said
        return said

    def type(self, keys):
        os.write(self.end, keys.encode())
        return self.read_on()

    def sleeps_in(self, *calls):
        """Waits until the console has come to wait in one of these system calls of x86-64: a console without line editing that
        is between its prompt and its read misses a Ctrl-C. Where the system does not tell, 0.3 seconds are waited."""
        for _ in range(2000):
            try:
                with open(f'/proc/{self.child}/syscall') as file:
                    if file.read().split()[0] in calls:
                        return
            except OSError:
                time.sleep(0.3)
                return
            time.sleep(0.01)
        fail(f'the console does not wait where it is to: {self.printed!r}')

    def line(self, text):
        return self.type(text + '\n')

    def quit(self):
        """The exit status."""
        os.write(self.end, b'quit\n')
        return self.status()

    def status(self):
        while self.read_part():
            pass
        os.close(self.end)
        return os.waitstatus_to_exitcode(os.waitpid(self.child, 0)[1])

    def want(self, *texts):
        for text in texts:
            if text not in self.printed:
                fail(f'the console did not print {text!r}, but {self.printed!r}')


def shown(program):
    """The run of a document. A wrong line is answered with a hint and is no failure there."""
    run = sys.stdin.read()
    terminal = Terminal(program)
    for line in run.splitlines():
        if line.startswith('> '):
            terminal.line(line[2:])
    terminal.line('reserv 0 3')
    if not terminal.printed.startswith(run):
        fail(f'the console printed\n{terminal.printed}\nand not first\n{run}')
    terminal.want('Is it `reserve`?')
    if terminal.quit() != 0:
        fail('a wrong line that was typed counts as a failure')


def edited(program):
    """A letter is deleted in the middle of a line, and the line before is called back, with another number at its end."""
    back, left, delete = '\x1b[A', '\x1b[D', '\x7f'
    terminal = Terminal(program)
    for line in ('fresh 8 4', 'reserrve 0 3' + left * 6 + delete, back + delete + '4', 'role carer', '? reserve'):
        terminal.line(line)
    terminal.want('[000.....]', 'refused, 7: sheet 0 is Open', 'carer> ', 'SHEET COUNT [from BLOCK]')
    if terminal.quit() != 0:
        fail('the console ended with another status than 0')


def lessons(program, columns=60, lines=24):
    """Enter at every stop. No line is longer than the terminal is wide, none but a line of the card, and between two stops no
    more is printed than the terminal shows, unless one command says more than that, as `why` may."""
    for lesson in sorted(glob.glob('desk/lessons/*.txt')):
        terminal = Terminal(program, lesson, columns=columns, lines=lines)
        said, stops = terminal.printed, 0
        while said.endswith(STOP):
            if said.split('The rows of ')[0].count('\n') >= lines:
                fail(f'{lesson} printed {said.count(chr(10))} lines at once')
            stops += 1
            said = terminal.line('')
        long = [line for line in terminal.printed.split('\n')
                if len(line) > columns and STOP not in line and '    [' not in line and not line.startswith('> ')]
        if long:
            fail(f'{lesson} printed lines longer than {columns}: {long}')
        with open(lesson) as f:
            paragraphs = f.read().count('\n\n')
        if stops < paragraphs:
            fail(f'{lesson} stopped {stops} times, and has {paragraphs + 1} paragraphs')
        if terminal.status() != 0 or 'expect' in terminal.printed.replace('is expected', ''):
            fail(f'{lesson} on a terminal: {terminal.printed}')


def stops(program):
    """A command that is tried is taken back before the lesson goes on, undo keeps to what was tried, and a lesson can be
    left."""
    terminal = Terminal(program)
    terminal.line(f'run {LESSON}')
    for line in ('', 'release 0', 'reserve 5 1', 'undo', 'undo', 'undo', 'release 1', 'release 2', ''):
        terminal.line(line)
    terminal.want('undone: release 0', "The commands before are the lesson's", 'undone: release 2', 'undone: release 1')
    while terminal.printed.endswith(STOP):
        terminal.line('')
    if 'NOT AS EXPECTED' in terminal.printed:
        fail(f'the lesson went on from somewhere else: {terminal.printed}')
    terminal.line(f'run {LESSON}')
    terminal.line('')
    terminal.line('leave')
    if not terminal.line('card').endswith('\n> ') or 'A card of 10 blocks' not in terminal.printed:
        fail(f'a lesson that is left: {terminal.printed}')
    terminal.line(f'run {LESSON}')
    if terminal.quit() != 0:
        fail('`quit` at a stop')


def ctrl_c(program):
    terminal = Terminal(program)
    terminal.line('fresh 8 4')
    os.write(terminal.end, b'reserve 0 3')
    time.sleep(0.2)
    terminal.sleeps_in(READ, PSELECT)
    if '\n> ' not in terminal.type(CTRL_C):
        fail(f'Ctrl-C at a line: {terminal.printed!r}')
    terminal.line('survey')
    terminal.want('free blocks 8')
    terminal.line(f'run {LESSON}')
    terminal.sleeps_in(READ, PSELECT)
    said = terminal.type(CTRL_C)
    if not said.endswith('\n> '):
        fail(f'Ctrl-C at a stop: {said!r}')
    with tempfile.TemporaryDirectory() as room:
        os.mkfifo(f'{room}/never')
        os.write(terminal.end, f'load {room}/never\n'.encode())
        terminal.sleeps_in(OPEN)
        terminal.type(CTRL_C)
    terminal.want('The file could not be read (Interrupted system call)')
    if 'card of' not in terminal.line('card') or terminal.quit() != 0:
        fail(f'after Ctrl-C: {terminal.printed!r}')


def history(program):
    """Lines of a lesson and lines that were tried and taken back are in it, those that were not understood are not."""
    with tempfile.TemporaryDirectory() as room:
        file = f'{room}/history.txt'
        terminal = Terminal(program)
        terminal.line(f'run {LESSON}')
        while terminal.printed.endswith(STOP):
            terminal.line('release 0')
            terminal.line('')
        for line in ('reserv 1 1', 'release 3', f'history {file}'):
            terminal.line(line)
        before = terminal.line('card').split('\n', 1)[1]
        if terminal.quit() != 0:
            fail('the console ended with another status than 0')
        again = subprocess.run([program], input=f'run {file}\ncard\n', capture_output=True, text=True)
        if again.returncode != 0 or not again.stdout.endswith(before.removesuffix('> ')):
            fail(f'the history run again: {again.stdout}, and it was {before}')


def main(words):
    parts = {'shown': shown, 'edited': edited, 'lessons': lessons, 'stops': stops, 'ctrl-c': ctrl_c, 'history': history}
    if len(words) != 2 or words[0] not in parts:
        sys.exit(__doc__)
    parts[words[0]](words[1])


main(sys.argv[1:])
