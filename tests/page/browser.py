"""A browser with the page in it, and what a person does there."""
import os
import time

from selenium import webdriver
from selenium.webdriver.chrome.service import Service
from selenium.webdriver.common.action_chains import ActionChains
from selenium.webdriver.common.by import By
from selenium.webdriver.common.keys import Keys


class Failed(Exception):
    pass


def want(holds, text):
    if not holds:
        raise Failed(text)


class Page:
    """Chromium without a window. Files that the page lets a person keep come to the folder `kept`."""

    def __init__(self, page, kept):
        self.url, self.kept = 'file://' + os.path.abspath(page), os.path.abspath(kept)
        os.makedirs(self.kept, exist_ok=True)
        options = webdriver.ChromeOptions()
        options.binary_location = '/usr/bin/chromium'
        for word in ('--headless=new', '--no-sandbox', '--disable-gpu', '--disable-dev-shm-usage',
                     '--host-rules=MAP * 127.0.0.1:1'):  # no network
            options.add_argument(word)
        options.add_experimental_option('prefs', {'download.default_directory': self.kept})
        options.set_capability('goog:loggingPrefs', {'browser': 'ALL'})
        self.driver = webdriver.Chrome(service=Service('/usr/bin/chromedriver'), options=options)
        self.driver.execute_cdp_cmd('Browser.setDownloadBehavior', {'behavior': 'allow', 'downloadPath': self.kept})

    def look(self, width, height, dark=False, media=''):
        """The width of the window, and light or dark."""
        size = {'width': width, 'height': height, 'deviceScaleFactor': 1, 'mobile': False}
        self.driver.execute_cdp_cmd('Emulation.setDeviceMetricsOverride', size)
        scheme = {'name': 'prefers-color-scheme', 'value': 'dark' if dark else 'light'}
        self.driver.execute_cdp_cmd('Emulation.setEmulatedMedia', {'media': media, 'features': [scheme]})

    def open(self, lesson=''):
        self.driver.get('about:blank')
        self.driver.get(self.url + ('#' + lesson if lesson else ''))
        self.until(lambda: self.script('return document.documentElement.dataset.ready'), 'the page does not start')

    def until(self, holds, text, seconds=30):
        end = time.time() + seconds
        while not holds():
            want(time.time() < end, text)
            time.sleep(0.02)

    def script(self, text, *words):
        return self.driver.execute_script(text, *words)

    def one(self, selector):
        return self.driver.find_element(By.CSS_SELECTOR, selector)

    def all(self, selector):
        return self.driver.find_elements(By.CSS_SELECTOR, selector)

    def text(self, selector):
        """What stands there, also where it is hidden now."""
        return self.script('return document.querySelector(arguments[0]).textContent', selector)

    def click(self, selector):
        element = self.one(selector)
        self.script('arguments[0].scrollIntoView({block: "center"})', element)
        element.click()

    def press(self, text, within):
        """The button with this text."""
        for button in self.all(within + ' button'):
            if button.text == text:
                self.script('arguments[0].scrollIntoView({block: "center"})', button)
                button.click()
                return
        raise Failed(f'there is no button "{text}" in {within}')

    def tab(self, name):
        self.click('#tab-' + name)

    def give(self, line):
        """Types a command. Gives the sentence that answers it."""
        field = self.one('#line')
        field.clear()
        field.send_keys(line + '\n')
        want(self.text('#command').endswith('> ' + line), f'{line} is shown as {self.text("#command")}')
        return self.text('#words')

    def keys(self, *keys):
        """Keys to wherever the focus is."""
        ActionChains(self.driver).send_keys(*keys).perform()

    def pick(self, selector, path):
        self.one(selector).send_keys(os.path.abspath(path))

    def file(self, name, press, seconds=20):
        """The bytes of a file that the page lets one keep."""
        path = os.path.join(self.kept, name)
        if os.path.exists(path):
            os.remove(path)
        press()
        self.until(lambda: os.path.exists(path), f'{name} is not kept', seconds)
        with open(path, 'rb') as f:
            return f.read()

    def call_time(self):
        return float(self.script('return document.documentElement.dataset.call'))

    def errors(self):
        return [entry['message'] for entry in self.driver.get_log('browser') if entry['level'] == 'SEVERE']

    def quit(self):
        self.driver.quit()


__all__ = ['ActionChains', 'By', 'Failed', 'Keys', 'Page', 'want']
