#!/usr/bin/env python3
"""merge-check.py: looks at a checkout without a proof. Run it at its top; prints faults, and `0 faults` if there are none.

    paths       each `Rattle.CRATE.(specs|proofs).X` names a crate of its line of crates.txt (or itself), a file that Lib.antt
                lists, names that it defines and marks `pub`; `declared` and `contracts` a module, a type or function in it
    code        each `use CRATE::..` and `CRATE::..` names a crate of its line, and a name or module that its lib.rt gives;
                `crate::..` a module or item that is there
    proofs      a folder of proofs/ is a function's or a method's path (MODULE/FUNCTION, MODULE/TYPE/METHOD)
    crates.txt  crates with folders, no circle, no edge to a later section, no edge that nothing names
    modules     each file of src is named by a `mod`; no module and item alike at a root
    edits       each edit's file is there, and its old text stands once in it
"""
import collections
import glob
import os
import re
import sys

sys.dont_write_bytecode = True
sys.path.insert(0, 'tools')
import repository as repo

bad, listed = [], repo.crates()
text = {}


def read(at):
    if at not in text:
        with open(at, encoding='utf-8') as f:
            text[at] = f.read()
    return text[at]


def wrong(at, what):
    bad.append(f'{at}: {what}')


# crates.txt
folders = {it.split('/')[1] for it in glob.glob('crates/*/src')}
for name in sorted(folders ^ set(listed)):
    wrong('crates.txt', f'{name} stands in it or in crates/, not in both')
for name, crate in listed.items():
    if name in repo.below(name, listed):
        wrong('crates.txt', f'{name} is in a circle')
    for it in crate.uses:
        if it in listed and listed[it].section > crate.section:
            wrong('crates.txt', f'{name} depends on {it} of a later section')
    if len(set(crate.uses)) < len(crate.uses) or name in crate.uses:
        wrong('crates.txt', f'{name} lists one twice, or itself')

# what each crate has
DEF = re.compile(r'(?m)^(?:  )*((?:(?:pattern|unfoldable|abbrev|pub|axiom) )*)(?:(?:record|data) )?(\S+)')
ITEM = re.compile(r'(?m)^\s*(?:pub(?:\([a-z]+\))? )?(?:unsafe )?(?:extern "C" )?(?:const )?(?:fn|struct|enum|trait|type|const|static|mod|union) (\w+)')
VARIANT = re.compile(r'(?m)^\s+(\w+)(?:\(|\{|,| \{| =)')
names, libs, mods, roots, fields = {}, {}, collections.defaultdict(dict), {}, {}
for c in listed:
    for kind in ('specs', 'proofs'):
        at = f'crates/{c}/{kind}'
        if not os.path.isdir(at):
            continue
        lib = dict((n, v) for v, n in re.findall(r'(?m)^((?:pub )?mod) (\w+)', read(f'{at}/Lib.antt'))) if os.path.exists(f'{at}/Lib.antt') else {}
        libs[c, kind] = lib
        here = {it[:-5] for it in os.listdir(at) if it.endswith('.antt') and it != 'Lib.antt'}
        for it in sorted(here ^ set(lib)):
            wrong(f'{at}/Lib.antt', f'{it} is no file, or no line')
        for n in here:
            t, ns = read(f'{at}/{n}.antt'), {}
            for m in DEF.finditer(t):
                ns[m[2]] = ns.get(m[2], False) or 'pub' in m[1]
            for m in re.finditer(r'(?m)^ +(?:(?:pub|abbrev|unfoldable|pattern) )*(\S+)(?= :| \(| \{)', t):
                if not ns.get(m[1]):
                    ns[m[1]] = 'pub data' in t or ns.get(m[1], True)
            for m in re.finditer(r'(?m)^pub use Rattle\.\S*?\.\{([^}]*)\}', t):
                ns.update({x.split(' as ')[-1].strip(): True for x in m[1].split(',')})
            for m in re.finditer(r'(?m)^ *\| *(\S+)', t):
                ns[m[1]] = True
            names[c, kind, n] = ns
    for at in repo.sources(c):
        rel = os.path.relpath(at, f'{repo.ROOT}/crates/{c}/src')[:-3]
        mods[c][rel.replace('/', '::')] = os.path.relpath(at, repo.ROOT)
USE = re.compile(r'(?m)^([ \t]*)((?:pub(?:\([a-z]+\))? )?)use ((?:\w+::)*)(\{[^{}]*\}|\w+|\*)((?: as \w+)?);')


def words(tail):
    return [it for it in (' '.join(it.split()) for it in tail.strip('{}').split(',')) if it]


def has(word, code):
    """Whether code names the word, or a type that it begins with (TypeTrait)."""
    word = re.split(r'[-+]', word)[0]
    return re.search(rf'\b{re.escape(word)}\b', code) or any(
        word.startswith(it) for it in re.findall(r'(?m)^\s*(?:pub(?:\([a-z]+\))? )?(?:struct|enum) (\w+)', code)) or any(
        word.startswith(it) for it in re.findall(r'(?m)^\s*impl(?:<[^\n]*?>)? [^\n]*?(?:for )?(\w+)(?:<[^\n]*)? \{', code))


def items(c, module):
    at = mods[c].get(module)
    found = set(ITEM.findall(read(at))) if at else set()
    for m in USE.finditer(read(at)) if at else []:
        found |= {it.split(' as ')[-1] for it in words(m[4])} | ({m[5][4:]} if m[5] else set())
    return found


for c in listed:
    root = 'lib' if 'lib' in mods[c] else 'main'
    roots[c] = items(c, root)
    own = re.findall(r'(?m)^(?:pub(?:\([a-z]+\))? )?mod (\w+);', read(mods[c][root])) if root in mods[c] else []
    if len(own) != len(set(own)):
        wrong(f'crates/{c}/src/{root}.rt', 'two modules of one name')
    shown = collections.Counter(it for m in USE.finditer(read(mods[c][root])) for it in words(m[4]) if m[2].startswith('pub ') and not m[1])
    for it in shown:
        if shown[it] > 1 or it in own:
            wrong(f'crates/{c}/src/{root}.rt', f'{it} stands twice')
    for module, at in mods[c].items():
        if module == root or '::' not in module and module in own:
            continue
        up, _, last = module.rpartition('::')
        if not up or not re.search(rf'(?m)^\s*(?:pub(?:\([a-z]+\))? )?mod {last};', read(mods[c].get(up, at))):
            wrong(at, 'no `mod` names it')

# paths
PATH = re.compile(r'\bRattle\.(raft\w*|hello|threads|voter)\.(specs|proofs)\.([^\s{};,()]+?)(?:\.\{([^}]*)\})?(?=[\s;,()]|$)')
edges, count = collections.defaultdict(set), 0
for c in listed:
    for at in sorted(glob.glob(f'crates/{c}/*/**/*', recursive=True)):
        if '/out/' in at or not at.endswith(('.rt', '.antt')):
            continue
        t = read(at)
        code = '\n'.join(line for line in t.split('\n') if not line.lstrip().startswith(('//', '--')))
        for m in PATH.finditer(code):
            count += 1
            x, kind, parts = m[1], m[2], m[3].split('.')
            ns = [n.split(' as ')[0].strip() for n in (m[4] or '').split(',') if n.strip()]
            edges[c].add(x)
            if kind == 'proofs' and '/proofs/' not in at and x == c:
                wrong(at, f'a clause or a definition names a proof of its own crate: {m[0]}')
            if x not in listed:
                wrong(at, f'no crate {x}')
                continue
            if x != c and x not in listed[c].uses:
                wrong(at, f'{x} is not in the line of {c}')
            if parts[0] in ('declared', 'contracts') or kind == 'proofs' and parts[0][0].islower():
                own = parts[1:] if parts[0] in ('declared', 'contracts') else parts
                fits = [k for k in range(len(own), 0, -1) if '::'.join(own[:k]) in mods[x]]
                if not fits:
                    if own[0] in roots[x]:
                        continue
                    wrong(at, f'no module {".".join(own)} in {x}')
                    continue
                rest = own[fits[0]:] + (ns[:1] if len(own) == fits[0] else [])
                module = '::'.join(own[:fits[0]])
                deeper = ''.join(read(mods[x][it]) for it in mods[x] if it == module or it.startswith(module + '::'))
                if rest and rest[0] not in ('TheConstants', 'TheOwn', 'Given', 'Goals') and not has(rest[0], deeper):
                    wrong(at, f'{x} {module} has no {rest[0]}')
                continue
            if parts[0] not in libs.get((x, kind), {}):
                wrong(at, f'{x}/{kind}/Lib.antt has no {parts[0]}')
                continue
            if x != c and not libs[x, kind][parts[0]].startswith('pub'):
                wrong(at, f'{x} {kind} {parts[0]} is no pub mod')
            have = names.get((x, kind, parts[0]), {})
            for n in ns:
                if n not in have:
                    wrong(at, f'{x}.{kind}.{parts[0]} has no {n}')
                elif not have[n] and at != f'crates/{x}/{kind}/{parts[0]}.antt':
                    wrong(at, f'{x}.{kind}.{parts[0]}.{n} is not pub')
        if not at.endswith('.rt'):
            continue
        for m in re.finditer(r'crate::(proofs|specs)::(\w+)(?:::(\S+?))?(?=[\s(),;])', code):
            if m[2] not in libs.get((c, m[1]), {}):
                wrong(at, f'no {m[0]}')
        for m in re.finditer(r'\b(raft_\w+)::\{', code):
            edges[c].add(m[1])
            if m[1] not in listed or m[1] not in listed[c].uses:
                wrong(at, f'{m[1]} is not in the line of {c}')
        spaced = code
        for m in re.finditer(r'\b(crate|raft_\w+)::(\w+)(?:::(\w+))?', spaced):
            x, first, second = (c if m[1] == 'crate' else m[1]), m[2], m[3]
            if m[1] != 'crate':
                edges[c].add(x)
                if x not in listed:
                    wrong(at, f'no crate {x}')
                    continue
                if x != c and x not in listed[c].uses:
                    wrong(at, f'{x} is not in the line of {c}')
                if x == c:
                    wrong(at, f'{m[0]} names its own crate')
            if first in ('proofs', 'specs'):
                continue
            if first not in roots[x] and first not in {k.split('::')[0] for k in mods[x]}:
                wrong(at, f'{x} has no {first}')
            elif second and first in mods[x] and second not in items(x, first) and f'{first}::{second}' not in mods[x] and not (
                    first in roots[x] and first[0].isupper()):
                wrong(at, f'{x}::{first} has no {second}')
        for m in USE.finditer(code):
            if m[4].startswith('{') and m[3].startswith(('crate::', 'raft_')):
                head, *more = m[3].removesuffix('::').split('::')
                x = c if head == 'crate' else head
                if x not in listed or more and more[0] in ('proofs', 'specs'):
                    continue
                have = roots[x] if not more else items(x, '::'.join(more)) | {k.rpartition('::')[2] for k in mods[x] if k.rpartition('::')[0] == '::'.join(more)}
                if more and '::'.join(more) not in mods[x]:
                    continue
                for n in words(m[4]):
                    if n.split(' as ')[0] not in have and n != 'self':
                        wrong(at, f'{m[3]} has no {n}')

for c, crate in listed.items():
    for it in crate.uses:
        if it in listed and it not in edges[c]:
            wrong('crates.txt', f'{c} names {it}, and no file does')

# proofs
for c in listed:
    for at in sorted(glob.glob(f'crates/{c}/proofs/**/', recursive=True)):
        files = [it for it in os.listdir(at) if it.endswith('.antt')]
        parts = os.path.relpath(at, f'crates/{c}/proofs').split('/')
        if parts == ['.'] or not files:
            continue
        fits = [k for k in range(len(parts), 0, -1) if '::'.join(parts[:k]) in mods[c]]
        at_root = 'lib' if 'lib' in mods[c] else 'main'
        module, rest = ('::'.join(parts[:fits[0]]), parts[fits[0]:]) if fits else (at_root, parts)
        t = ''.join(read(mods[c][it]) for it in mods[c] if len(rest) > 1 or it == module or it.startswith(module + '::'))
        last = rest[-1] if rest else parts[-1]
        fn = re.split(r'[-+]', last)[0]
        if not re.search(rf'\bfn {fn}\b', t):
            wrong(at, f'no function {last} in {module}')
        for it in rest[:-1]:
            if not has(it, t):
                wrong(at, f'{module} has no {it}')

# edits
for at in sorted(glob.glob('crates/*/must-fail/*.edit') + glob.glob('crates/*/must-fail/more/*.edit.md')):
    t, c = read(at), at.split('/')[1]
    file = re.search(r'(?m)^file: (\S+)', t)
    if not file or not os.path.exists(f'crates/{c}/{file[1]}'):
        wrong(at, f'no file {file and file[1]}')
        continue
    now = read(f'crates/{c}/{file[1]}')
    for old, new in re.findall(r'(?m)^old: (.*)\nnew: (.*)$', t):
        if now.count(old) != 1:
            wrong(at, f'its old text stands {now.count(old)} times: {old[:80]}')
        now = now.replace(old, new, 1)

print('\n'.join(sorted(set(bad))))
print(f'{len(listed)} crates, {count} paths, {len(set(bad))} faults')
sys.exit(bool(bad))
