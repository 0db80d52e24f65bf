"""The crates of crates.txt, what `rattle` is told of each, and whether the libraries below it stand as `rt ci` built them."""
import glob
import hashlib
import json
import os
import subprocess

LISTED, NOTE = 'crates.txt', 'target/proved.json'
PARTS = ('src', 'specs', 'proofs')


class Crate:
    """A line of crates.txt: `NAME: DEP ..`, or `NAME staticlib: DEP ..`."""

    def __init__(self, line):
        head, _, deps = line.partition('#')[0].partition(':')
        self.name, self.is_static, self.deps = head.split()[0], 'staticlib' in head.split(), deps.split()
        self.folder = f'crates/{self.name}'
        self.is_program = os.path.exists(f'{self.folder}/src/main.rt')
        self.rlib = f'{self.folder}/out/rlib/{self.name}.rlib'

    def makes_rlib(self):
        return not self.is_program and not self.is_static


def content(path):
    with open(path, encoding='utf-8') as f:
        return f.read()


def listed():
    """every crate, by its name, in the order of crates.txt"""
    lines = [line for line in content(LISTED).splitlines() if ':' in line.partition('#')[0]]
    return {crate.name: crate for crate in map(Crate, lines)}


def below(name, crates):
    """the names of the repository's crates below this one, each behind those that it uses"""
    found = []
    for dep in crates[name].deps:
        if dep in crates:
            found += [one for one in [*below(dep, crates), dep] if one not in found]
    return found


def kit():
    """the kit's folder"""
    done = subprocess.run(['rt', 'doc'], check=True, stdout=subprocess.PIPE, text=True)
    return os.path.dirname(done.stdout.strip())


def words(name, crates, jobs=2):
    """what `rattle check` and `rattle build` are told of a crate, in a folder with its src/, specs/ and proofs/, as `rt` tells
    them"""
    crate, here = crates[name], kit()
    told = ['--crate-name', name, 'src/main.rt' if crate.is_program else 'src/lib.rt']
    for dep in ['std', *crate.deps]:
        told += ['--extern', f'{dep}={os.path.abspath(crates[dep].rlib) if dep in crates else f"{here}/rlibs/{dep}.rlib"}']
    told += ['-L', f'dependency={here}/rlibs']
    for dep in below(name, crates):
        told += ['-L', f'dependency={os.path.abspath(os.path.dirname(crates[dep].rlib))}']
    told += ['--antt-project', f'{here}/rattle/logic/antt-project.json', '--logic-built', f'{here}/logic_built']
    return told + ['--jobs', str(jobs)] + ['--crate-type', 'staticlib'] * crate.is_static


def sum_of(paths):
    whole = hashlib.sha256()
    for path in sorted(paths):
        with open(path, 'rb') as f:
            whole.update(f'{path} {hashlib.sha256(f.read()).hexdigest()}\n'.encode())
    return whole.hexdigest()


def stands(crates):
    """what there is now: the sources, and what `rt ci` leaves of each library and program; None where a part is not there"""
    sources = [path for name in crates for part in PARTS
               for path in glob.glob(f'crates/{name}/{part}/**', recursive=True) if os.path.isfile(path)]
    # a library's format has the checksums of its other files
    made = [f'{c.rlib}/format' if c.makes_rlib() else f'{c.folder}/out/{c.name}' for c in crates.values() if not c.is_static]
    if not all(os.path.isfile(path) for path in made):
        return None
    return {'kit': sum_of([f'{kit()}/KIT-ID', f'{kit()}/WHAT']), 'sources': sum_of([LISTED, *sources]), 'made': sum_of(made)}


def note():
    """Notes, right behind an `rt ci` that passed, that the libraries and programs are those that it proved and built; not where
    it has put back libraries of an earlier `rt check`, which have a stamp."""
    crates = listed()
    is_own = not any(os.path.exists(f'{c.folder}/out/rlib/stamp') for c in crates.values())
    found = stands(crates) if is_own else None
    os.makedirs(os.path.dirname(NOTE), exist_ok=True)
    if found:
        with open(NOTE, 'w', encoding='utf-8') as f:
            json.dump(found, f)
    elif os.path.exists(NOTE):
        os.remove(NOTE)
    return bool(found)


def noted(crates):
    """Whether all stands as `rt ci` proved and built it."""
    try:
        return json.loads(content(NOTE)) == stands(crates)
    except (OSError, ValueError):
        return False
