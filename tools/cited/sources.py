"""The tracked files, and the identifiers that each of them has outside comments."""
import fnmatch
import os
import re
import subprocess
import sys

CODE = ('.rt', '.rs', '.c', '.h')
MARKED = ('.py', '.toml', '.txt')  # a comment begins with a number sign

# The port to a newer kit, the rewriting in its forms and the look back at it: what was renamed, moved and deleted, by the names
# before and after.
OF_BEFORE = ('docs/PORT.md', 'docs/DESIGN-PASS.md', 'docs/DESIGN-PASS-02.md', 'docs/LOOK-BACK.md')

C_COMMENT = re.compile(r'/\*.*?\*/|//[^\n]*', re.S)
DASHES = re.compile(r'(?m)(^|\s)--(\s[^\n]*)?$')
NUMBER_SIGN = re.compile(r'(?m)(^|\s)#[^\n]*$')
IDENTIFIER = re.compile(r"[^\W\d][\w′']*(?:-[^\W\d][\w′']*)*")


def tracked():
    """the tracked files that are there; one that is to be committed is tracked from `git add` on"""
    try:
        listed = subprocess.run(['git', 'ls-files', '-z'], check=True, capture_output=True, text=True).stdout
    except (OSError, subprocess.CalledProcessError):
        sys.exit('the tracked files cannot be listed: this needs git, and a clone of the repository')
    return [p for p in listed.split('\0') if p and os.path.isfile(p)]


def is_script(text):
    return text.startswith('#!')


class Sources:
    def __init__(self):
        self.files = tracked()
        self.folders = {p[:i] for p in self.files for i, letter in enumerate(p) if letter == '/'}
        self.all = set(self.files) | self.folders
        self.tops = {p.split('/')[0] for p in self.folders}
        self.crates = {p.split('/')[1] for p in self.files if fnmatch.fnmatch(p, 'crates/*/src/*')}
        self.found = {}

    def text(self, path):
        with open(path, encoding='utf-8', errors='replace') as f:
            return f.read()

    def documents(self):
        found = ['README.md'] + [p for p in self.files if re.fullmatch(r'docs/[^/]+\.md|include/[^/]+\.h', p)]
        return [p for p in found if p not in OF_BEFORE]

    def is_source(self, path):
        """not what examples read and print, nor the documents and this tool, whose names would vouch for themselves"""
        end = os.path.splitext(path)[1]
        if path.endswith(('/stdin', '/stdout')) or path.startswith(('docs/', 'tools/cit')):
            return False
        return end in CODE + MARKED + ('.antt',) or (not end and is_script(self.text(path)))

    def identifiers(self, path):
        """of a source, or of all sources in a folder"""
        if path not in self.found:
            if path in self.folders or path == '':
                inside = [p for p in self.files if p.startswith(path + '/' if path else '') and self.is_source(p)]
                self.found[path] = set().union(*(self.identifiers(p) for p in inside))
            else:
                self.found[path] = self.identifiers_of_file(path)
        return self.found[path]

    def identifiers_of_file(self, path):
        text = self.text(path)
        if path.endswith('.antt'):
            text = DASHES.sub(' ', text)
        elif path.endswith(CODE):
            text = C_COMMENT.sub(' ', text)
        else:
            text = NUMBER_SIGN.sub(' ', text)
        return set(IDENTIFIER.findall(text))
