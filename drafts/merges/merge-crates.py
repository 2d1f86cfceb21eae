#!/usr/bin/env python3
"""Merges crates, so that 60 of 73 are left. Run it at the top of a checkout.

    merge-crates.py --list          the merges, and whether the checkout still has their crates
    merge-crates.py                 all of them
    merge-crates.py NAME..          only the named ones (names of the new crates), one commit each if you like
    merge-crates.py --without NAME  all but this one (may be repeated)
    merge-crates.py --also lz4      a reserve, alone (lz4, or gathering: raft_watch into raft_gathering), after the others
    merge-crates.py --also guard    no merge: modules of raft_commands, which takes 6.4 GB, go into a new crate raft_guard

It moves files, replaces paths, and renames the modules that two crates of a merge have both; it prints these. No function,
clause or definition changes, but one: `config` of raft_commands moves to raft_command_line (merge raft_offline).
READMEs of merged crates come from merge-readmes/ beside this file; where an old README has changed since that was
written, a line says so: look whether the new one still holds. A merge whose crates are gone is passed over, so it can be
run again. Then: merge-check.py, `rt fmt` in the crates that it names (--fmt does it), `tools/documents --write`.
"""
import collections
import glob
import hashlib
import os
import re
import runpy
import subprocess
import sys
import textwrap

sys.dont_write_bytecode = True
HERE = os.path.dirname(os.path.abspath(__file__))
TOP = os.getcwd()

# Merges, from low to high: new name -> its crates from low to high, the head of lib.rt, the crate at whose line it stands in
# crates.txt, and names of modules that collide (else a colliding one takes its crate's prefix).
Merge = collections.namedtuple('Merge', 'new olds head at names prefix mib', defaults=[None])
MERGES = [
    Merge('raft_records', ['raft_records', 'raft_once'],
          'The contents of a record of the log, and the numbers of writes that act once. The items of\n`raft_base` are '
          're-exported here.', 'raft_records',
          {('raft_once', 'src', 'laws'): 'once_laws'}, {'raft_once': 'Once'}),
    Merge('raft_log_laws', ['raft_index_laws', 'raft_crash_laws', 'raft_queue_laws'],
          'Laws of the log as a whole: of the index, of both queues as contents, and of what a crash leaves\nof a queue. '
          'Only laws.', 'raft_crash_laws',
          {('raft_index_laws', 'src', 'steps'): 'index_steps'}, {'raft_index_laws': 'Index'}),
    Merge('raft_recovery', ['raft_builder', 'raft_replay'],
          'Opens both queues of log files in stages: find, read in order or by workers, settle; and what the\nread batches '
          'give: chunks, each in its own tables, and the contents of both queues.', 'raft_replay',
          {('raft_replay', 'src', 'reading'): 'both_queues'},
          {'raft_replay': 'Replay', 'raft_builder': 'Builder'}),
    Merge('raft_purge_steps', ['raft_purge_steps', 'raft_stale'],
          'The log that purges work on, their steps on it, the marks that are owed, and drops of log files\nthat the '
          'contents don\'t need.', 'raft_purge_steps',
          {('raft_stale', 'specs', 'Scope'): 'LostFront', ('raft_stale', 'specs', 'Dropping'): 'Dropped'},
          {'raft_stale': 'Stale'}),
    Merge('raft_purge', ['raft_rewrite', 'raft_purge'],
          'The purges that rewrite: of the Append queue, of the Rewrite queue, and of expired files. What\nthey keep is '
          'written to the Rewrite queue, group by group.', 'raft_purge',
          {('raft_purge', 'specs', 'Gathering'): 'SomeLog', ('raft_purge', 'specs', 'Scope'): 'PurgeScope'},
          {'raft_purge': 'Purge'}),
    Merge('raft_whole_records', ['raft_sum', 'raft_whole_records'],
          'Finds the whole records in the bytes of a log file, also after broken ones, and decompresses\ntheir entries; '
          'checksums (SHA-256) of contents, which don\'t depend on the layout of the files.',
          'raft_whole_records', {}, {'raft_sum': 'Sum'}),
    Merge('raft_closed_log', ['raft_consistency', 'raft_dump_laws', 'raft_fork'],
          'A log that isn\'t open: a copy of its files, from which another engine can be opened, and holes in\nits '
          'entries. Laws: an opening does with its files what `raft_dump` plans.', 'raft_fork',
          {('raft_dump_laws', 'src', 'laws'): 'plan_laws'}, {'raft_dump_laws': 'Plan', 'raft_consistency': 'Holes'}),
    Merge('raft_c_log', ['raft_orders', 'raft_c_log'],
          'An open log for callers in other languages. Its calls return codes and leave their results as\nbytes and '
          'numbers. Files whose changes are given as orders, to a caller that carries them out before\nit trusts a result.',
          'raft_c_log', {}, {'raft_orders': 'Orders'}),
    Merge('raft_console', ['raft_console', 'raft_opening_plan'],
          'What the commands of raftctl read and print: keys and values in any bytes, lines, and progress.\nThe plan of an '
          'opening, which all print alike: each step that loses something or needs a word, with\nthe command that mends '
          'it. Only values: nothing here reads a folder.', 'raft_console', {}, {'raft_opening_plan': 'Plan'}),
    Merge('raft_offline', ['raft_watch', 'raft_offline'],
          'The commands of raftctl that open no log: the settings in force, a copy of the log files, and a\nrunning log '
          'watched from outside.', 'raft_offline', {}, {'raft_watch': 'Watch'}, 4400),
    Merge('raft_sweeps', ['raft_opening_scenarios', 'raft_sweeps'],
          'Tests that cross crates: trials, failing calls in lists of operations, logs that reuse files,\nforks and '
          'listeners; openings of a real folder after crashes, and of no files.', 'raft_sweeps', {},
          {'raft_opening_scenarios': 'Opening'}, 4600),
]

# Merges by name only (--also KEY): if another crate has come, or one of the others takes too much memory.
RESERVES = {
    'lz4': Merge('raft_whole_records', ['raft_lz4', 'raft_whole_records'],
                 'Finds the whole records in the bytes of a log file, also after broken ones, and decompresses their entries '
                 '(the LZ4 format); checksums (SHA-256) of contents, which don\'t depend on the layout of the files.',
                 'raft_whole_records', {('raft_lz4', 'src', 'block'): 'lz4_block'}, {'raft_lz4': 'Lz4'}),
    'gathering': Merge('raft_gathering', ['raft_watch', 'raft_gathering'],
                       'Reads the whole records of log files: all of them into tables of their groups, with a report of what '
                       'could not be read; or the new ones of a running log, every few seconds.',
                       'raft_gathering', {('raft_watch', 'src', 'report'): 'watch_report'}, {'raft_watch': 'Watch'}),
}

# Sections of crates.txt whose crates have moved: (number, name) -> what it says.
HEADINGS = {
    '5. Both queues': 'the opening of one queue, which reads, cuts and syncs its files; the calls on both',
    '6. The log as a whole': 'its laws; openings of both queues; kept blocks; listeners',
}

# Sentences that name merged crates side by side: (path, pattern, text). One that is not there is passed over.
SENTENCES = [
    ('docs/DECISIONS.md', r'(\(`raft_recovery_laws`), `raft_log_laws`\)\. Each\n  law is the contract of a function without a body\.',
     r'\1, `raft_log_laws`). Each law is the contract of a\n  function without a body.'),
    ('CONTRIBUTING.md', r'the order of steps: `raft_purge`; its records: `raft_purge`; one step: `raft_purge_steps`',
     'the order of steps, and its records: `raft_purge`; one step: `raft_purge_steps`'),
    ('CONTRIBUTING.md', r'its write: `raft_purge_steps` `marks`; drops: `raft_purge_steps` `drops`, `old_files`',
     'its write: `raft_purge_steps` `marks`; drops: its `drops`, `old_files`'),
    ('CONTRIBUTING.md', r'`raft_recovery`; what the engine gets of it: `raft_recovery` `both_queues`',
     '`raft_recovery`; what the engine gets of it: its `both_queues`'),
    ('crates/raft_test_rows/README.md', r"share\. The tests of `raft_sweeps` take the engine's\s+types from it\.",
     "share. Those of `raft_sweeps` take the engine's types\nfrom it."),
    ('crates/raft_listeners/README.md', r'`Purges\.cut` of `raft_purge` and `written` of `raft_purge`', '`Purges.cut` and `written` of `raft_purge`'),
    ('docs/TESTING.md', r'(?m)^\| `raft_sweeps` \| (a real folder as a crash may leave it; openings that find no files) \|\n'
     r'([\s\S]*?^\| `raft_sweeps` \| [^|\n]*?) \|$', r'\2; \1 |'),
    ('docs/TESTING.md', r'(?m)^(\| `raft_sweeps` \| [^|\n]*?) \|\n([\s\S]*?)'
     r'^\| `raft_sweeps` \| (a real folder as a crash may leave it; openings that find no files) \|\n', r'\1; \3 |\n\2'),
]


def path(*parts):
    return os.path.join(TOP, *parts)


def read(at):
    with open(at, encoding='utf-8') as f:
        return f.read()


def write(at, text):
    os.makedirs(os.path.dirname(at), exist_ok=True)
    with open(at, 'w', encoding='utf-8') as f:
        f.write(text)


def git(*words):
    return subprocess.run(['git', '-C', TOP, *words], check=True, capture_output=True, text=True).stdout


def say(*words):
    print('merge:', *words, flush=True)


def files_of(crate):
    """The crate's files, by their paths in it."""
    found = []
    for at, folders, names in os.walk(path('crates', crate)):
        folders[:] = [it for it in folders if it != 'out']
        found += [os.path.relpath(f'{at}/{name}', path('crates', crate)) for name in names]
    return sorted(found)


# names of modules

def modules(crate, kind):
    """The modules of src, specs or proofs that stand at their top."""
    end = '.rt' if kind == 'src' else '.antt'
    names = {os.path.basename(it)[:-len(end)] for it in glob.glob(path('crates', crate, kind, f'*{end}'))}
    if kind == 'src':
        names |= {os.path.basename(it[:-1]) for it in glob.glob(path('crates', crate, 'src', '*/'))}
    return names - {'lib', 'main', 'Lib'}


class Names:
    """Where each old crate goes, and which of its modules take another name."""

    def __init__(self, merges):
        self.new = {old: merge.new for merge in merges for old in merge.olds}
        self.renamed = {}
        for merge in merges:
            for kind in ('src', 'specs', 'proofs'):
                self.clear(merge, kind)

    def clear(self, merge, kind):
        taken = collections.defaultdict(list)
        for old in merge.olds:
            for name in modules(old, kind):
                taken[name].append(old)
        every = set(taken)
        for name, olds in sorted(taken.items()):
            if len(olds) < 2:
                continue
            keeps = [old for old in olds if (old, kind, name) not in merge.names and old not in merge.prefix][:1]
            keeps = keeps or [old for old in olds if (old, kind, name) not in merge.names][:1]
            for old in olds:
                if old in keeps:
                    continue
                prefix = merge.prefix.get(old, ''.join(it.title() for it in old.split('_')[1:]))
                to = merge.names.get((old, kind, name)) or (
                    f'{prefix.lower()}_{name}' if kind == 'src' else prefix + name)
                if to in every:
                    sys.exit(f'merge: {merge.new}: {to} of {old} is taken: give {name} a name in MERGES')
                every.add(to)
                self.renamed[old, kind, name] = to
                say(f'{merge.new}: {kind}/{name} of {old} is {to} now')

    def of(self, crate, kind, name):
        return self.renamed.get((crate, kind, name), name)


# paths in clauses, definitions and proofs

def ghost_paths(text, names):
    """`Rattle.CRATE.specs.X` and `Rattle.CRATE.proofs.X`."""
    def one(m):
        crate, kind, head, rest = m[1], m[2], m[3], m[4] or ''
        if crate not in names.new:
            return m[0]
        if head in ('declared', 'contracts'):
            inner = re.match(r'\.(\w+)', rest)
            if inner:
                rest = '.' + names.of(crate, 'src', inner[1]) + rest[inner.end():]
        elif kind == 'proofs' and head[0].islower():
            head = names.of(crate, 'src', head)
        else:
            head = names.of(crate, kind, head)
        return f'Rattle.{names.new[crate]}.{kind}.{head}{rest}'

    return re.sub(r'\bRattle\.(\w+)\.(specs|proofs)\.(\w+)((?:\.\w+)?)', one, text)


# paths in code

USE = re.compile(r'(?m)^([ \t]*)((?:pub(?:\([a-z]+\))? )?)use ((?:\w+::)*)(\{[^{}]*\}|\w+|\*)((?: as \w+)?);[ \t]*\n')


class Root:
    """What a lib.rt has: where each public name comes from."""

    def __init__(self, crate):
        self.names, self.modules = {}, modules(crate, 'src')
        at = path('crates', crate, 'src', 'lib.rt')
        for m in USE.finditer(read(at) if os.path.exists(at) else ''):
            if m[2].startswith('pub ') and not m[1]:
                for name in listed(m[4]):
                    self.names[name.split(' as ')[-1]] = m[3].removesuffix('::'), name.split(' as ')[0]


def listed(tail):
    return [it for it in (' '.join(it.split()) for it in tail.strip('{}').split(',')) if it]


class Code:
    """The code of one crate, as it reads in its new place."""

    def __init__(self, crate, names, roots):
        self.crate, self.names, self.roots = crate, names, roots
        self.here = names.new.get(crate, crate)

    def target(self, root, inner):
        """The path of an item, as words, that the crate named by its path as root and inner."""
        owner = self.crate if root == 'crate' else root
        new, inner = self.names.new.get(owner, owner), list(inner)
        if owner not in self.names.new:
            return [root] + inner
        if inner[0] in ('specs', 'proofs') and len(inner) > 1:
            inner[1] = self.names.of(owner, inner[0], inner[1])
        elif inner[0] in self.roots[owner].modules:
            inner[0] = self.names.of(owner, 'src', inner[0])
        elif len(inner) == 1 and new == self.here and root != 'crate' and inner[0] in self.roots[owner].names:
            at, name = self.roots[owner].names[inner[0]]
            words = at.split('::')
            if words[0] in self.roots[owner].modules and len(words) == 1:
                return ['crate', self.names.of(owner, 'src', words[0]), name]
            if words[0] not in self.roots[owner].modules and words[0] not in ('crate', 'self'):
                return words + [name]
        return ['crate' if new == self.here else new] + inner

    def uses(self, text):
        """The `use` lines; those of one block that begin alike are put together."""
        out, at, block = [], 0, []
        for m in USE.finditer(text):
            between = text[at:m.start()]
            if between.strip() or between.count('\n'):
                out += [self.block(block), between]
                block = []
            block.append(m)
            at = m.end()
        return ''.join(out) + self.block(block) + text[at:]

    def block(self, found):
        lines, order = collections.OrderedDict(), []
        for m in found:
            root, *inner = m[3].removesuffix('::').split('::') if m[3] else ['']
            owner = self.crate if root == 'crate' else root
            if owner not in self.names.new or m[4] == '*':
                if owner in self.names.new or not m[4].startswith('{') and not m[3] or m[5] or m[4] == '*':
                    order.append((m[1], m[2], m[0]))
                    continue
                for name in listed(m[4]):
                    self.add(lines, order, m, m[3].removesuffix('::').split('::') + [name])
                continue
            for name in listed(m[4]):
                bare, *alias = name.split(' as ')
                words = self.target(root, inner + [bare])
                words[-1] += f' as {alias[0]}' if alias else m[5]
                self.add(lines, order, m, words)
        return ''.join(it[2] if it not in lines else self.line(it, lines[it]) for it in order)

    @staticmethod
    def add(lines, order, m, words):
        key = m[1], m[2], '::'.join(words[:-1])
        if key not in lines:
            lines[key] = []
            order.append(key)
        if words[-1] not in lines[key]:
            lines[key].append(words[-1])

    @staticmethod
    def line(key, found):
        indent, pub, prefix = key
        prefix += '::' if prefix else ''
        if len(found) == 1:
            return f'{indent}{pub}use {prefix}{found[0]};\n'
        whole = f'{indent}{pub}use {prefix}{{{", ".join(sorted(found))}}};'
        if len(whole) < 100:
            return whole + '\n'
        rows, row = [], f'{indent}    '
        for name in sorted(found):
            if len(row) + len(name) + 1 > 99:
                rows.append(row.rstrip())
                row = f'{indent}    '
            row += f'{name}, '
        return '\n'.join([f'{indent}{pub}use {prefix}{{', *rows, row.rstrip(), f'{indent}}};']) + '\n'

    def line_of_code(self, line):
        """Paths in a line that is no `use`."""
        if USE.match(line + '\n'):
            return line
        is_comment = line.lstrip().startswith('//')

        def one(m):
            root, words = m[1], m[2].split('::')
            owner = self.crate if root == 'crate' else root
            if owner not in self.names.new or is_comment and root == 'crate' and words[0] not in self.roots[owner].modules:
                return m[0]
            new = self.target(root, words[:2] if words[0] in ('specs', 'proofs') else words[:1])
            if is_comment and new[0] == 'crate' and root != 'crate':
                new[0] = self.here
            return '::'.join(new + words[2 if words[0] in ('specs', 'proofs') else 1:])

        return re.sub(r'\b(crate|raft_\w+)::((?:\w+::)*\w+)', one, line)

    def text(self, text):
        text = self.uses(ghost_paths(text, self.names))
        text = '\n'.join(self.line_of_code(line) for line in text.split('\n'))
        return words_in(text, self.names)


def rewrapped(text, before):
    """Comments of which a line has got longer than 100 columns: their paragraph from that line on, in lines again."""
    old, lines, i = set(before.split('\n')), text.split('\n'), 0
    plain = re.compile(r'(\s*(?://[/!]?|--) )(?![-|#`*>\d ])(\S.*)')
    while i < len(lines):
        m = plain.fullmatch(lines[i])
        if m and len(lines[i]) > 100 and lines[i] not in old:
            j = i + 1
            while j < len(lines) and plain.fullmatch(lines[j]) and lines[j].startswith(m[1]):
                j += 1
            words = ' '.join(line[len(m[1]):] for line in lines[i:j])
            lines[i:j] = [m[1] + it for it in textwrap.wrap(words, 100 - len(m[1]), break_long_words=False,
                                                            break_on_hyphens=False)]
        i += 1
    return '\n'.join(lines)


def words_in(text, names):
    """Names of crates by themselves, as comments have them."""
    def one(m):
        new = names.new.get(m[1], m[1])
        return new + ("'" if m[2] and new.endswith('s') and new != m[1] else m[2])

    return re.sub(r"(?<![\w.])(raft_\w+)(?!::)\b((?:'s\b)?)", one, text)


# lib.rt

class Lib:
    """A lib.rt in parts."""

    def __init__(self, crate, code):
        text = code.text(read(path('crates', crate, 'src', 'lib.rt')))
        self.mods, self.uses, self.ghosts, self.inner, rest = [], [], [], [], []
        lines, attributes, i = text.split('\n'), [], 0
        while i < len(lines):
            line = lines[i]
            mod = re.fullmatch(r'((?:pub(?:\(\w+\))? )?)mod (\w+);', line)
            if line.startswith('//!'):
                pass
            elif line.startswith('#!['):
                self.inner.append(line)
            elif mod and not rest:
                self.mods.append((code.names.of(crate, 'src', mod[2]), mod[1], attributes))
                attributes = []
            elif line.startswith('ghost use ') and not rest:
                self.ghosts.append(line)
            elif re.match(r'(pub(\(\w+\))? )?use ', line) and not rest:
                statement = line
                while ';' not in statement:
                    i += 1
                    statement += '\n' + lines[i]
                self.uses.append(self.relative(statement + '\n', crate, code))
            elif line.startswith('#[') and not rest and re.match(r'((pub(\(\w+\))? )?mod |#\[)', lines[i + 1]):
                attributes = attributes + [line]
            elif line.strip() or rest:
                rest.append(line)
            i += 1
        self.rest = '\n'.join(rest).strip('\n')

    @staticmethod
    def relative(statement, crate, code):
        """A `use` of the root's own modules, by their new names."""
        m = USE.match(statement)
        if not m or not m[3]:
            return statement
        first, *more = m[3].removesuffix('::').split('::')
        if first == 'crate' and m[2]:
            first, *more = more or ['crate']
        if first in code.roots[crate].modules:
            first = code.names.of(crate, 'src', first)
        return f'{m[1]}{m[2]}use {"::".join([first, *more])}::{m[4]}{m[5]};\n'


def heads(text):
    return ''.join(f'//! {line}\n' for line in textwrap.wrap(' '.join(text.split()), 96))


def joined_lib(merge, names, roots):
    libs = [Lib(old, Code(old, names, roots)) for old in merge.olds]
    mods = sorted(it for lib in libs for it in lib.mods)
    twice = [name for name, count in collections.Counter(it[0] for it in mods).items() if count > 1]
    if twice:
        sys.exit(f'merge: {merge.new}: modules {twice} stand twice')
    lines, order, seen = collections.OrderedDict(), [], {}
    for lib in libs:
        for statement in lib.uses:
            m = USE.match(statement)
            if not m:
                order.append(('', '', statement))
                continue
            for name in listed(m[4]):
                shown = name.split(' as ')[-1] if not m[5] else m[5][4:]
                source = m[3] + name.split(' as ')[0]
                if seen.setdefault(shown, source) != source:
                    sys.exit(f'merge: {merge.new}: {shown} is {seen[shown]} and {source}')
                key = m[1], m[2], m[3].removesuffix('::')
                if ('', '' if m[2] else 'pub ', key[2]) in lines and name in lines[('', '' if m[2] else 'pub ', key[2])]:
                    continue
                Code.add(lines, order, m, m[3].removesuffix('::').split('::') + [name + m[5]])
    for name, *_ in mods:
        if name in seen:
            sys.exit(f'merge: {merge.new}: {name} is a module and a name of {seen[name]}')
    uses = sorted((it[2] if it in lines else re.sub(r'^\s*(pub )?use ', '', it[2]),
                   Code.line(it, lines[it]) if it in lines else it[2]) for it in order)
    text = heads(merge.head)
    text += '\n'.join(dict.fromkeys(line for lib in libs for line in lib.inner)) + '\n'
    text += ''.join(line + '\n' for line in dict.fromkeys(line for lib in libs for line in lib.ghosts))
    text += '\n' + ''.join(''.join(f'{it}\n' for it in attributes) + f'{pub}mod {name};\n'
                           for name, pub, attributes in mods)
    text += '\n' * bool(uses) + ''.join(line for _, line in uses)
    return text + ''.join(f'\n{lib.rest}\n' for lib in libs if lib.rest)


# carrying out

def joined_index(merge, kind, names):
    """specs/Lib.antt or proofs/Lib.antt: a line for each file."""
    lines = []
    for old in merge.olds:
        at = path('crates', old, kind, 'Lib.antt')
        for line in read(at).split('\n') if os.path.exists(at) else []:
            line = re.sub(r'^((?:pub )?mod )(\w+)$', lambda m: m[1] + names.of(old, kind, m[2]), line)
            if line.strip() and line not in lines:
                lines.append(line)
    if not any(os.path.exists(path('crates', old, kind, 'Lib.antt')) for old in merge.olds):
        return None
    return ''.join(f'{line}\n' for line in lines)


def place(old, at, names):
    """Where a file of a merged crate stands in the new one."""
    kind, _, rest = at.partition('/')
    if kind in ('src', 'specs', 'proofs') and rest:
        first, slash, more = rest.partition('/')
        stem, dot, end = first.partition('.')
        if kind == 'proofs' and slash:
            return f'proofs/{names.of(old, "src", first)}/{more}'
        if slash:
            return f'{kind}/{names.of(old, kind, first)}/{more}'
        return f'{kind}/{names.of(old, kind, stem)}{dot}{end}'
    return at


def edit_text(text, code, old, names):
    """A must-fail edit: its file, and its texts as code or as definitions."""
    text = re.sub(r'(?m)^file: (src|specs|proofs)/(.*)$',
                  lambda m: 'file: ' + place(old, f'{m[1]}/{m[2]}', names), text)
    out = []
    for line in text.split('\n'):
        m = re.match(r'(old|new): (.*)', line)
        out.append(f'{m[1]}: {code.text(m[2])}' if m else words_in(paths_in(line, names), names))
    return '\n'.join(out)


def paths_in(text, names):
    """Paths of files and of functions, as documents write them."""
    def file(m):
        crate, at = m[2], m[3]
        if crate not in names.new:
            return m[0]
        return m[1] + names.new[crate] + '/' + place(crate, at, names)

    text = re.sub(r'((?<![\w/.])|crates/)(raft_\w+)/((?:src|specs|proofs)/[\w/]+(?:\.\w+)?)', file, text)

    def function(m):
        crate, module = m[1], m[2]
        return m[0] if crate not in names.new else f'{names.new[crate]}::{names.of(crate, "src", module)}'

    text = re.sub(r'\b(raft_\w+)::(\w+)', function, text)

    def beside(m):
        crate, module = m[1], m[3]
        if crate not in names.new or (crate, 'src', module) not in names.renamed:
            return m[0]
        return f'`{crate}`{m[2]}`{names.of(crate, "src", module)}{m[4]}'

    text = re.sub(r'`(raft_\w+)`( | in |, |\'s )`(\w+)(`|::)', beside, text)

    def definition(m):
        crate, kind, name = m[1], m[3], m[4]
        if crate not in names.new:
            return m[0]
        return f'`{crate}`{m[2]}`{kind}/{names.of(crate, kind, name)}.antt`'

    return re.sub(r'`(raft_\w+)`( | in |\'s )`(specs|proofs)/(\w+)\.antt`', definition, text)


def once_each(text, names):
    """Not two times the same new crate, one behind the other."""
    for new in set(names.new.values()):
        text = re.sub(rf'`{new}`(?:(?:,| and|, and| or)\s+`{new}`)+(?!\s?`)', f'`{new}`', text)
    return text


def new_line(merge, lines, names):
    """The line of crates.txt, its dependencies in the order of the list, then those of the kit."""
    order = list(lines)
    deps = []
    for old in merge.olds:
        deps += [names.new.get(it, it) for it in lines[old][1]]
    deps = [it for it in dict.fromkeys(deps) if it != merge.new]
    own = {names.new.get(it, it) for it in order}
    ranks = {}
    for k, it in enumerate(order):
        ranks.setdefault(names.new.get(it, it), k)
    mine = sorted((it for it in deps if it in own), key=ranks.get)
    kinds = [it for old in merge.olds for it in lines[old][0]]
    return ' '.join([merge.new, *dict.fromkeys(kinds)]) + ': ' + ' '.join(mine + [it for it in deps if it not in own])


def list_of_crates(merges, names):
    text, lines = read(path('crates.txt')), {}
    for line in text.split('\n'):
        head, colon, deps = line.partition('#')[0].partition(':')
        if colon and head.strip():
            lines[head.split()[0]] = head.split()[1:], deps.split()
    made = {merge.at if merge.at in lines else merge.olds[-1]: new_line(merge, lines, names) for merge in merges}
    out = []
    for line in text.split('\n'):
        head = line.partition('#')[0].partition(':')
        name = head[0].split()[0] if head[1] and head[0].strip() else None
        section = re.fullmatch(r'# (\d+\. [^:]+): (.*)', line)
        if section and section[1] in HEADINGS and names.new.get('raft_builder'):
            line = f'# {section[1]}: {HEADINGS[section[1]]}'
        if name in made:
            line = made[name]
        elif name in names.new:
            continue
        elif name:
            deps = dict.fromkeys(names.new.get(it, it) for it in lines[name][1])
            line = ' '.join([name, *lines[name][0]]) + ':' + ''.join(f' {it}' for it in deps)
        out.append(line)
    write(path('crates.txt'), '\n'.join(out))


def seen(crate):
    """Whether the crate's README is one that those of merge-readmes/ were made of."""
    at = f'{HERE}/merge-readmes/SEEN'
    known = read(at).splitlines() if os.path.exists(at) else []
    return f'{hashlib.sha1(read(path("crates", crate, "README.md")).encode()).hexdigest()} {crate}' in known


def readme(merge, names):
    """The README of a new crate: that of merge-readmes/, else those of its crates."""
    at, own = f'{HERE}/merge-readmes/{merge.new}{"+lz4" * ("raft_lz4" in merge.olds)}.md', ''
    for old in merge.olds:
        own += read(path('crates', old, 'README.md'))
        if os.path.exists(at) and not seen(old):
            say(f'{merge.new}: the README of {old} is not the one that {os.path.basename(at)} was made of: look at both')
    return read(at) if os.path.exists(at) else once_each(words_in(paths_in(own, names), names), names)


def move(merge, names, roots):
    """The files of the merged crates, in the folder of the new one."""
    texts = {}
    lib, indexes = joined_lib(merge, names, roots), {k: joined_index(merge, k, names) for k in ('specs', 'proofs')}
    texts['src/lib.rt'], texts['README.md'] = lib, readme(merge, names)
    texts |= {f'{kind}/Lib.antt': text for kind, text in indexes.items() if text is not None}
    done = set(texts)
    for old in merge.olds:
        code = Code(old, names, roots)
        for at in files_of(old):
            here, there = path('crates', old, at), place(old, at, names)
            if there in ('src/lib.rt', 'README.md', 'specs/Lib.antt', 'proofs/Lib.antt'):
                os.remove(here)
                continue
            while there in done:
                if not there.startswith('must-fail/'):
                    sys.exit(f'merge: {merge.new}: two files {there}')
                there = re.sub(r'(\.edit(?:\.md)?)$', f'_of_{old.removeprefix("raft_")}\\1', there)
                say(f'{merge.new}: {at} of {old} is {there} now')
            done.add(there)
            texts[there] = changed(here, at, code, old, names)
            os.remove(here)
    for old in merge.olds:
        for at, _, _ in sorted(os.walk(path('crates', old)), reverse=True):
            if not os.path.relpath(at, path('crates', old)).startswith('out') and not os.listdir(at):
                os.rmdir(at)
    for at, text in texts.items():
        write(path('crates', merge.new, at), text)


def changed(here, at, code, crate, names):
    """A file's text in its new place; None for one that is no text."""
    text = read(here)
    if at.endswith('.rt'):
        return rewrapped(code.text(text), text)
    if at.endswith('.antt'):
        return rewrapped(words_in(ghost_paths(text, names), names), text)
    if at.startswith('must-fail/'):
        return edit_text(text, code, crate, names)
    if at.endswith('.md'):
        return once_each(words_in(paths_in(text, names), names), names)
    return text


def others(names, roots):
    """All other crates, and what names crates outside crates/."""
    for crate in sorted(os.listdir(path('crates'))):
        if crate in names.new or not os.path.isdir(path('crates', crate, 'src')):
            continue
        code = Code(crate, names, roots)
        for at in files_of(crate):
            here = path('crates', crate, at)
            if at.endswith(('.rt', '.antt', '.edit', '.md')):
                old = read(here)
                new = changed(here, at, code, crate, names) if any(it in old for it in names.new) else old
                if new != old:
                    write(here, new)
    for at in git('ls-files', '-z').split('\0'):
        if not at or at.startswith(('crates/', 'drafts/', 'bench/results/gate.md', 'bench/results/pauses.md')) or at == 'crates.txt':
            continue
        if not os.path.isfile(path(at)) or os.path.islink(path(at)):
            continue
        try:
            old = read(path(at))
        except UnicodeDecodeError:
            continue
        if not any(it in old for it in names.new):
            continue
        new = old
        if 'raft_once/specs/*' in new and 'raft_once' in names.new:
            new = '\n'.join(named_files(line, names) if 'raft_once/specs/*' in line else line for line in new.split('\n'))
        new = re.sub(r'\b(raft_\w+)/(specs|proofs)/\*', lambda m: f'{names.new.get(m[1], m[1])}/{m[2]}/*', new)
        new = re.sub(r'\bcrates/(raft_\w+)\b(?!/)', lambda m: f'crates/{names.new.get(m[1], m[1])}', new)
        new = once_each(words_in(paths_in(new, names), names), names)
        if new != old:
            write(path(at), new)


def named_files(line, names):
    """A row of docs/READING.md that names folders, with their files: one of its crates is now part of another row's."""
    def one(m):
        own = sorted(it for it in os.listdir(path('crates', m[1], 'specs')) if it.endswith('.antt') and it != 'Lib.antt')
        own = [place(m[1], f'specs/{it}', names).partition('/')[2] for it in own]
        return f'`{names.new.get(m[1], m[1])}/specs/{own[0]}`' + ''.join(f', `{it}`' for it in own[1:])

    return re.sub(r'`(raft_\w+)/specs/\*`', one, line)


def sentences():
    for at, pattern, text in SENTENCES:
        if os.path.exists(path(at)):
            old = read(path(at))
            new = re.sub(pattern, text, old, count=1)
            if new != old:
                write(path(at), new)


# one function that moves

SETTINGS = '''//! The settings that a request names.

use crate::request::Options;
use raft_config::Config;
use raft_records::Fresh;
use std::alloc::{AllocError, Global};

'''


def item(text, start):
    """An item at the left margin, with its comments: (text without it, the item)."""
    m = re.search(rf'(?m)^(?:///?.*\n|#\[.*\n)*{re.escape(start)}[\s\S]*?^}}\n\n?', text)
    return (text[:m.start()] + text[m.end():], m[0]) if m else (text, None)


def without_name(text, name):
    """A file without an import that nothing names any more."""
    bare = USE.sub('', text)
    if re.search(rf'\b{name}\b', bare):
        return text

    def one(m):
        left = [it for it in listed(m[4]) if it != name]
        if len(left) == len(listed(m[4])):
            return m[0]
        return Code.line((m[1], m[2], m[3].removesuffix('::')), left) if left else ''

    return USE.sub(one, text)


def move_config():
    """`config` of raft_commands moves to raft_command_line, so that raft_offline does not stand on raft_commands."""
    at, lib = path('crates/raft_commands/src/opening.rt'), path('crates/raft_command_line/src/lib.rt')
    if not (os.path.exists(at) and os.path.exists(lib)) or 'pub fn config(' not in read(at):
        return say('config of raft_commands was moved before, or has another form: nothing done')
    text, config = item(read(at), 'pub fn config(')
    text, copy = item(text, 'fn copy_of(')
    if not config or not copy or re.search(r'\bcopy_of\(', text):
        return say('config of raft_commands has another form: left where it is')
    text = re.sub(r'use raft_command_line::(\{[^{}]*\}|\w+);\n', lambda m: Code.line(
        ('', '', 'raft_command_line'), [*listed(m[1]), 'config']), text, count=1)
    for name in ('Config', 'RecoveryMode', 'Fresh', 'AllocError', 'Options'):
        text = without_name(text, name)
    write(at, text.rstrip('\n') + '\n')
    write(path('crates/raft_command_line/src/in_force.rt'), SETTINGS + config.rstrip('\n') + '\n\n' + copy.rstrip('\n') + '\n')
    text = read(lib).replace('mod look_forms;\n', 'mod in_force;\nmod look_forms;\n', 1)
    write(lib, text.replace('pub use modes::', 'pub use in_force::config;\npub use modes::', 1))
    for crate in sorted(os.listdir(path('crates'))):
        for rt in glob.glob(path('crates', crate, 'src/**/*.rt'), recursive=True):
            old = text = read(rt)
            if crate == 'raft_commands':
                text = text.replace('pub use opening::config;\n', '')
                for m in list(re.finditer(r'(?m)^use crate::opening::(\{[^{}]*\}|\w+);\n', text)):
                    if 'config' in listed(m[1]):
                        left = [it for it in listed(m[1]) if it != 'config']
                        text = text.replace(m[0], Code.line(('', '', 'crate::opening'), left) if left else '', 1)
                        text = with_config(text)
            elif re.search(r'\braft_commands::', text):
                m = re.search(r'(?m)^use raft_commands::(\{[^{}]*\}|\w+);\n', text)
                if m and 'config' in listed(m[1]):
                    left = [it for it in listed(m[1]) if it != 'config']
                    text = text.replace(m[0], Code.line(('', '', 'raft_commands'), left) if left else '', 1)
                    text = with_config(text)
            if text != old:
                write(rt, text)
    lines = read(path('crates.txt'))
    for crate, less, more in (('raft_command_line', None, 'raft_records'), ('raft_offline', 'raft_commands', None)):
        m = re.search(rf'(?m)^{crate}:.*$', lines)
        deps = m[0].partition(':')[2].split()
        named = ''.join(read(it) for it in glob.glob(path('crates', crate, 'src/**/*.rt'), recursive=True))
        if less in deps and f'{less}::' not in named:
            deps.remove(less)
        if more and more not in deps:
            deps.insert(1, more)
        lines = lines.replace(m[0], f'{crate}: {" ".join(deps)}', 1)
    write(path('crates.txt'), lines)
    say('config of raft_commands is in raft_command_line (in_force) now')


def with_config(text):
    """A file of code with an import of `config`."""
    m = re.search(r'(?m)^use raft_command_line::(\{[^{}]*\}|\w+);\n', text)
    if m:
        return text.replace(m[0], Code.line(('', '', 'raft_command_line'), [*listed(m[1]), 'config']), 1)
    first = re.search(r'(?m)^use (?!crate::|anyhow)', text)
    return text[:first.start()] + 'use raft_command_line::config;\n' + text[first.start():]


# one crate that takes too much memory

GUARD = {'changed': 'changed', 'guard': 'guarding', 'kept': 'kept', 'spares': 'spares', 'stored': 'stored', 'taken': 'taken',
         'taking': 'taking', 'waiting': 'waiting'}
GUARD_HEAD = ('What commands of raftctl do before they change a log: they wait for its folder, print the plan of the opening, '
              'refuse what loses more than an unsynced tail explains, keep the bytes that are cut, and look for space. No log '
              'is opened here.')
DAMAGE = '''//! The first place at which an opening fails.

use raft_command_line::{Options, mode_name};
use raft_config::RecoveryMode;
use raft_env::FileSystem;
use raft_inspect::{QueueFiles, inspect};
use raft_records::{Fault, LogQueue};
use std::alloc::Global;

'''
DAMAGE_ITEMS = ['pub(crate) fn broken<', 'fn broken_in<', 'fn broken_place(', 'fn mode_that_opens(']


def split_guard():
    """The modules of raft_commands that need no engine go into raft_guard: with them its check takes 6.4 GB."""
    source, guard = path('crates/raft_commands/src'), path('crates/raft_guard/src')
    if os.path.isdir(guard) or not all(os.path.exists(f'{source}/{it}.rt') for it in GUARD):
        return say('raft_guard: it is there, or raft_commands has other modules: nothing done')
    move_config()
    made, opening = {}, read(f'{source}/opening.rt')
    damage = []
    for start in DAMAGE_ITEMS:
        opening, found = item(opening, start)
        if not found:
            return say(f'raft_guard: opening.rt of raft_commands has no {start}: nothing done')
        damage.append(found.rstrip('\n'))
    made['damage'] = DAMAGE + '\n\n'.join(damage) + '\n'
    for old, new in GUARD.items():
        text = read(f'{source}/{old}.rt').replace('crate::opening::broken', 'crate::damage::broken').replace('crate::guard::', 'crate::guarding::')
        left = set(re.findall(r'\bcrate::(\w+)', text)) - set(GUARD.values()) - {'damage'}
        if left:
            return say(f'raft_guard: {old} of raft_commands names {sorted(left)}: nothing done')
        made[new] = text
    if os.path.isdir(path('crates/raft_commands/proofs')) and set(os.listdir(path('crates/raft_commands/proofs'))) & set(GUARD):
        return say('raft_guard: a module that goes has proofs: nothing done')
    where = {'broken': 'damage'}
    used = collections.defaultdict(set)
    for rt in sorted(glob.glob(f'{source}/*.rt')):
        stem = os.path.basename(rt)[:-3]
        if stem in GUARD:
            continue
        old = text = opening if stem == 'opening' else read(rt)
        wanted = []
        for m in list(USE.finditer(text)):
            module = re.fullmatch(r'crate::(\w+)::', m[3])
            if module and module[1] in GUARD:
                wanted += listed(m[4])
                used[GUARD[module[1]]] |= set(listed(m[4]))
                text = text.replace(m[0], '', 1)
            elif module and module[1] == 'opening' and 'broken' in listed(m[4]):
                left = [it for it in listed(m[4]) if it != 'broken']
                text = text.replace(m[0], Code.line(('', '', 'crate::opening'), left) if left else '', 1)
                wanted.append('broken')
        if stem == 'opening':
            wanted.append('broken')
            for name in ('RecoveryMode', 'QueueFiles', 'mode_name', 'inspect', 'LogQueue', 'Fault', 'FileSystem', 'Config'):
                text = without_name(text, name)
        if wanted:
            first = re.search(r'(?m)^use (?!crate::|anyhow)', text)
            text = text[:first.start()] + Code.line(('', '', 'raft_guard'), list(dict.fromkeys(wanted))) + text[first.start():]
        if stem == 'lib':
            text = re.sub(rf'(?m)^mod ({"|".join(GUARD)});\n', '', text)
        if text != read(rt):
            write(rt, text)
    used['damage'].add('broken')
    for stem, text in made.items():
        write(f'{guard}/{stem}.rt', text.replace('pub(crate) ', 'pub '))
    for stem in GUARD:
        os.remove(f'{source}/{stem}.rt')
    write(f'{guard}/lib.rt', heads(GUARD_HEAD) + '#![tactic(auto)]\n\n' + ''.join(f'mod {it};\n' for it in sorted(made)) + '\n'
          + ''.join(Code.line(('', 'pub ', it), sorted(used[it])) for it in sorted(used)))
    if not seen('raft_commands'):
        say('raft_guard: the README of raft_commands is not the one that raft_commands.md was made of: look at both')
    for crate in ('raft_guard', 'raft_commands'):
        at = f'{HERE}/merge-readmes/{crate}.md'
        if os.path.exists(at):
            write(path('crates', crate, 'README.md'), read(at))
    lines = read(path('crates.txt'))
    m = re.search(r'(?m)^raft_commands: (.*)$', lines)
    deps = m[1].split()
    now = lambda crate: ''.join(read(it) for it in glob.glob(path('crates', crate, 'src/**/*.rt'), recursive=True))
    own = [it for it in deps if re.search(rf'\b{it}(::|!)', now('raft_guard'))]
    own += [it for it in ('anyhow',) if it not in own and re.search(rf'\buse {it}\b', now('raft_guard'))]
    left = [it for it in deps if re.search(rf'\b{it}(::|!)', now('raft_commands'))]
    at = next((k for k, it in enumerate(left) if it not in ('raft_command_line', 'raft_console', 'raft_opening_plan', 'raft_looks')), 0)
    left.insert(at, 'raft_guard')
    lines = lines.replace(m[0], f'raft_guard: {" ".join(own)}\nraft_commands: {" ".join(left)}', 1)
    write(path('crates.txt'), lines)
    at = path('CONTRIBUTING.md')
    write(at, read(at).replace('`raft_commands` (looks also in `raft_looks`)', '`raft_commands` (looks also in `raft_looks`, what precedes a change in `raft_guard`)'))
    say('raft_guard: ' + ', '.join(sorted(made)) + ' of raft_commands')
    return None


def guard_costs():
    """Rows of raft_guard and raft_commands: shares of what raft_commands took, by their lines."""
    at = path('bench/results/gate.md')
    if not os.path.exists(at) or not os.path.isdir(path('crates/raft_guard')):
        return
    rows = re.findall(r'^\| `raft_commands` \| ([^|]+) \|(?: [^|]+ \|){3} (\d+) \|(?: [^|]+ \|){2} (\d+) \| (\d+) \|', read(at), re.M)
    first = re.search(r'^\| `raft_codec` \|.* (\d+) \|$', read(at), re.M)
    if not rows or not first:
        return
    _, proof, mib, machine = rows[-1]
    size = {it: sum(read(rt).count('\n') for rt in glob.glob(path('crates', it, 'src/**/*.rt'), recursive=True))
            for it in ('raft_guard', 'raft_commands')}
    made = []
    for it in size:
        share = size[it] / sum(size.values())
        took = round(int(proof) * int(first[1]) / int(machine) * share) + (FIXED if it == 'raft_guard' else 0)
        made.append(f'| `{it}` | – | – | – | – | {took} | – | – | {BASE + round((int(mib) - BASE) * share)} | {first[1]} |')
    lines = read(at).split('\n')
    last = [k for k, line in enumerate(lines) if re.match(r'\| `\w+` \|(?: [^|]+ \|){8} \d+ \|', line)][-1]
    note = textwrap.wrap('The rows of `raft_guard` and of `raft_commands` after it are shares of what `raft_commands` took '
                         'before they were two, by their lines: not measured.', 125)
    write(at, '\n'.join(lines[:last + 1] + made + [''] + note + lines[last + 1:]))


# what the gate takes

FIXED, BASE = 7, 700     # seconds and MiB of a check that proves next to nothing
NOTE = '''
The last rows, of {names}, are sums over the crates that were merged into them, less {fixed} seconds and {base} MiB for each
check that is gone (MiB of `raft_offline` and `raft_sweeps`: guesses); edits are guessed by their number. None was measured.
'''


def costs(merges):
    """Rows of bench/results/gate.md for the merged crates, made before they are merged."""
    if not os.path.exists(path('bench/results/gate.md')):
        return None
    sys.path.insert(0, path('tools'))
    times = runpy.run_path(path('tools/gate-times'), run_name='gate-times')
    model, text = times['model'](), read(path('bench/results/gate.md'))
    rows = re.findall(r'^\| `(\w+)` \| ([^|]+) \|(?: [^|]+ \|){3} (?:\d+|–) \| (?:\d+|–) \| (?:\d+|–) \| ([^|]+) \| (\d+) \|', text, re.M)
    peak = {name: int(mib) for name, _, mib, _ in rows if mib.isdigit()}
    functions = {name: int(count) for name, count, _, _ in rows if count.isdigit()}
    machine, made = rows[0][3], []
    for merge in merges:
        sums = collections.Counter()
        for old in merge.olds:
            sums.update(model[old][1])
        edits = sum(len(glob.glob(path('crates', old, 'must-fail/*.edit'))) for old in merge.olds)
        proof = round(sums['proof']) - FIXED * (len(merge.olds) - 1)
        having = sum(bool(glob.glob(path('crates', old, 'must-fail/*.edit'))) for old in merge.olds)
        tried = round(sums['edits']) if having < 2 and edits < 2 else round(proof * (0.9 + 0.2 * edits))
        mib = merge.mib or BASE + sum(peak.get(old, BASE) - BASE for old in merge.olds)
        count = sum(functions.get(old, 0) for old in merge.olds) or '–'
        made.append(f'| `{merge.new}` | {count} | – | – | {edits or "–"} | {proof} | {round(sums["tests"]) or "–"} | '
                    f'{tried if edits else "–"} | {mib} | {machine} |')
    return made


def add_costs(made, merges):
    at, names = path('bench/results/gate.md'), [merge.new for merge in merges]
    text = read(at)
    earlier = re.search(r'\n\nThe last rows, of ([\s\S]*?), are sums[\s\S]*?None was\s+measured\.', text)
    if earlier:
        names = re.findall(r'`(\w+)`', earlier[1]) + names
        text = text.replace(earlier[0], '', 1)
    lines = text.split('\n')
    rows = [k for k, line in enumerate(lines) if re.match(r'\| `\w+` \|(?: [^|]+ \|){8} \d+ \|', line)]
    note = NOTE.format(names=', '.join(f'`{it}`' for it in dict.fromkeys(names)), fixed=FIXED, base=BASE)
    note = textwrap.wrap(' '.join(note.split()), 125)
    write(at, '\n'.join(lines[:rows[-1] + 1] + made + [''] + note + lines[rows[-1] + 1:]))


def main(args):
    if args in (['-h'], ['--help']):
        print(__doc__.strip())
        return 0
    fmt, out, only, also, words = '--fmt' in args, set(), set(), [], [it for it in args if it != '--fmt']
    while words:
        word = words.pop(0)
        if word == '--without':
            out.add(words.pop(0))
        elif word == '--also':
            also.append(words.pop(0))
        elif not word.startswith('-'):
            only.add(word)
    unknown = (only | out) - {merge.new for merge in MERGES}
    if unknown:
        sys.exit(f'merge: no merges {sorted(unknown)}')
    there = lambda merge: all(os.path.isdir(path('crates', old, 'src')) for old in merge.olds)
    if '--list' in args:
        for merge in MERGES:
            print(f'{merge.new}: {" + ".join(merge.olds)}{"" if there(merge) else "   (not there)"}')
        return 0
    merges = [it for it in MERGES if (not only or it.new in only) and it.new not in out and (only or not also)]
    merges += [RESERVES[it] for it in also if it != 'guard']
    if 'guard' in also:
        if git('status', '--porcelain', '--', 'crates', 'crates.txt', 'docs').strip():
            sys.exit('merge: commit what has changed first')
        split_guard()
        guard_costs()
        git('add', '-A', 'crates', 'crates.txt', 'CONTRIBUTING.md', 'bench')
        for crate in ('raft_guard', 'raft_commands', 'raft_command_line', 'raft_offline') if fmt else []:
            if os.path.isdir(path('crates', crate)):
                subprocess.run(['rt', 'fmt'], cwd=path('crates', crate), check=False)
        git('add', '-A', 'crates')
    for merge in [it for it in merges if not there(it)]:
        say(f'{merge.new}: one of its crates is not there: passed over')
    merges = [it for it in merges if there(it)]
    if not merges or also == ['guard']:
        return 0
    if git('status', '--porcelain', '--', 'crates', 'crates.txt', 'docs').strip():
        sys.exit('merge: commit what has changed first')
    rows, names = costs(merges), Names(merges)
    if any(merge.new == 'raft_offline' for merge in merges):
        move_config()
    roots = {old: Root(old) for old in names.new}
    list_of_crates(merges, names)
    others(names, roots)
    for merge in merges:
        move(merge, names, roots)
    sentences()
    if rows:
        add_costs(rows, merges)
    git('add', '-A', 'crates', 'crates.txt', 'docs', 'tools', 'clients', 'bench', 'README.md', 'CONTRIBUTING.md')
    changed_crates = sorted({it.split('/')[1] for it in git('diff', '--cached', '--name-only', 'HEAD').split('\n')
                             if it.startswith('crates/')} & set(os.listdir(path('crates'))))
    say(f'{len(merges)} merges; {len(os.listdir(path("crates")))} crates; changed: {" ".join(changed_crates)}')
    for crate in changed_crates if fmt else []:
        subprocess.run(['rt', 'fmt'], cwd=path('crates', crate), check=False)
    if fmt:
        git('add', '-A', 'crates')
    return 0


if __name__ == '__main__':
    sys.exit(main(sys.argv[1:]))
