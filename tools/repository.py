"""What the tools share: where the repository is, its list of crates, and its definitions."""
import collections
import glob
import os
import re
import signal

signal.signal(signal.SIGPIPE, signal.SIG_DFL)    # what reads a tool's lines may end before it does
ROOT = os.path.dirname(os.path.dirname(os.path.abspath(__file__)))
SECTION = re.compile(r'# (\d+)\. ([^:]+): (.+)')
WORD = re.compile(r'[^\s(){}\[\],;.]+')
START = re.compile(r'^\s*(?:abbrev |unfoldable )?pub (?:record |data )?([^\s:(]+)')
TYPE = re.compile(r'^\s*pub (?:record|data) ')
SOURCE_TYPE = re.compile(r'^pub(?:\(crate\))? (?:struct|enum) (\w+)')
USE = re.compile(r'^\s*(?:ghost )?use Rattle\.(\w+)\.specs\.([^{]+?)\.\{(.*)\}')
CLAUSE = re.compile(r'^\s*(ensures|requires|invariant|decreases)\b')

Crate = collections.namedtuple('Crate', 'name kind uses section')
Section = collections.namedtuple('Section', 'number name says crates')


def text_of(path):
    """A file's text; its path is whole or from the repository's top."""
    with open(os.path.join(ROOT, path), encoding='utf-8') as f:
        return f.read()


def lines_of(path):
    return text_of(path).split('\n')


def sections():
    """The sections of crates.txt with their crates; crates before the first are in section 0."""
    found = [Section(0, '', '', [])]
    for line in text_of('crates.txt').splitlines():
        heading = SECTION.fullmatch(line)
        if heading:
            found.append(Section(int(heading[1]), heading[2], heading[3], []))
        words, colon, uses = line.partition('#')[0].partition(':')
        if words.strip():
            name, *kind = words.split()
            found[-1].crates.append(Crate(name, kind, uses.split(), found[-1].number))
    return found if found[0].crates else found[1:]


def crates():
    """name -> its row of crates.txt."""
    return {crate.name: crate for section in sections() for crate in section.crates}


def below(name, listed):
    """All crates of the repository that one depends on."""
    found, todo = set(), [name]
    while todo:
        for dep in listed[todo.pop()].uses:
            if dep in listed and dep not in found:
                found.add(dep)
                todo.append(dep)
    return found


def from_low_to_high():
    """The crates' names, each after its dependencies, else in the order of crates.txt."""
    listed, order = crates(), []

    def add(name):
        for dep in listed[name].uses:
            if dep in listed and dep not in order:
                add(dep)
        if name not in order:
            order.append(name)

    for name in listed:
        add(name)
    return order


def sources(crate):
    return sorted(glob.glob(f'{ROOT}/crates/{crate}/src/**/*.rt', recursive=True))


def imported(lines):
    """What `use` lines bring from definitions of this repository: name -> (crate, name there)."""
    names = {}
    for line in lines:
        m = USE.match(line)
        if m and os.path.isdir(f'{ROOT}/crates/{m.group(1)}'):
            for word in m.group(3).split(','):
                parts = word.strip().split(' as ')
                names[parts[-1]] = (m.group(1), parts[0])
    return names


def definitions():
    """(crate, name) -> (file, its lines)."""
    found = {}
    for path in glob.glob(f'{ROOT}/crates/*/specs/**/*.antt', recursive=True):
        crate, lines, i = path[len(ROOT) + 1:].split('/')[1], lines_of(path), 0
        while i < len(lines):
            m = START.match(lines[i])
            if not m or lines[i].strip().startswith('pub mod'):
                i += 1
                continue
            depth, j, is_type = indent(lines[i]), i + 1, TYPE.match(lines[i])
            while j < len(lines) and lines[j].strip() and (
                    is_type or indent(lines[j]) > depth or not START.match(lines[j])):
                j += 1
            found[(crate, m.group(1))] = (path, lines[i:j])
            i = j
    return found


def source_types():
    """(crate, name) -> (file, its lines), of the structs and enums of the sources."""
    found = {}
    for path in glob.glob(f'{ROOT}/crates/*/src/**/*.rt', recursive=True):
        crate, lines = path[len(ROOT) + 1:].split('/')[1], lines_of(path)
        for i, line in enumerate(lines):
            m = SOURCE_TYPE.match(line)
            if m:
                j = i
                while line.rstrip().endswith('{') and lines[j] != '}':
                    j += 1
                found[(crate, m.group(1))] = (path, lines[i:j + 1])
    return found


def indent(line):
    return len(line) - len(line.lstrip())


def stated(body):
    """The lines without those that are empty or comments."""
    return [it for it in body if it.strip() and not it.strip().startswith(('--', '//', '#['))]


def length(body):
    return len(stated(body))
