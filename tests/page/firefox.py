#!/usr/bin/env python3
"""The page in Firefox: it starts, and every lesson comes to its end. Firefox is driven by its own protocol, Marionette, since
Debian has no driver for it.

    tests/page/firefox.py PAGE"""
import json
import os
import socket
import subprocess
import sys
import tempfile
import time

TEXTS = json.load(open('page/texts.json', encoding='utf-8'))


class Firefox:
    def __init__(self, folder):
        with socket.socket() as probe:
            probe.bind(('127.0.0.1', 0))
            port = probe.getsockname()[1]
        with open(os.path.join(folder, 'user.js'), 'w', encoding='utf-8') as f:
            f.write(f'user_pref("marionette.port", {port});\n')
        words = ['firefox-esr', '--headless', '--marionette', '--no-remote', '--profile', folder]
        self.process = subprocess.Popen(words, env={**os.environ, 'HOME': folder}, stdout=subprocess.DEVNULL,
                                        stderr=subprocess.DEVNULL)
        self.read, self.count = b'', 0
        for _ in range(300):
            try:
                self.socket = socket.create_connection(('127.0.0.1', port), timeout=60)
                break
            except OSError:
                time.sleep(0.2)
        self.answer()
        self.ask('WebDriver:NewSession', {})

    def answer(self):
        while b':' not in self.read:
            self.read += self.socket.recv(1 << 16)
        length, _, rest = self.read.partition(b':')
        while len(rest) < int(length):
            rest += self.socket.recv(1 << 16)
        self.read = rest[int(length):]
        return json.loads(rest[:int(length)])

    def ask(self, name, words):
        self.count += 1
        text = json.dumps([0, self.count, name, words]).encode()
        self.socket.sendall(str(len(text)).encode() + b':' + text)
        _, _, error, value = self.answer()
        if error:
            sys.exit(f'tests/page/firefox.py: FAILED: {error}')
        return value

    def script(self, text):
        return self.ask('WebDriver:ExecuteScript', {'script': text, 'args': []})['value']


def lessons(firefox, url):
    names = sorted(os.path.splitext(name)[0] for name in os.listdir('desk/lessons'))
    for name in names:
        firefox.ask('WebDriver:Navigate', {'url': 'about:blank'})
        firefox.ask('WebDriver:Navigate', {'url': f'{url}#{name}'})
        for _ in range(500):
            if firefox.script('return document.documentElement.dataset.ready'):
                break
            time.sleep(0.02)
        firefox.script('for (let main; (main = document.querySelector("#lesson .main"));) main.click()')
        end = firefox.script('return document.querySelector("#lesson").textContent')
        if TEXTS['lesson_end'] not in end or not firefox.script('return document.querySelectorAll("#picture rect").length'):
            sys.exit(f'tests/page/firefox.py: FAILED: {name} ends with {end}')
    return len(names)


def main(words):
    if len(words) != 1:
        sys.exit(__doc__)
    with tempfile.TemporaryDirectory() as folder:
        firefox = Firefox(folder)
        try:
            count = lessons(firefox, 'file://' + os.path.abspath(words[0]))
            ready = firefox.script('return document.documentElement.dataset.ready')
            print(f'  Firefox: passed: {count} lessons, first picture after {ready} ms')
        finally:
            firefox.process.terminate()
            firefox.process.wait()


main(sys.argv[1:])
