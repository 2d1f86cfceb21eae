#!/usr/bin/env python3
"""front.py CRATE..: whether crates and all below them are read (parsed, names and types resolved, lowered), without clang and
without a proof. Run it at the top of a checkout. CRATE:test reads it with its tests."""
import os, sys, tempfile, time
sys.dont_write_bytecode = True
sys.path.insert(0, 'tools')
import repository as repo, unproved
bad = 0
for word in sys.argv[1:]:
    name, _, tests = word.partition(':')
    crate, began = unproved.crate_of(name), time.monotonic()
    with tempfile.TemporaryDirectory(prefix='front-') as work:
        source = f'src/{"main" if crate.is_program else "lib"}.rt'
        if crate.is_static:
            import shutil
            shutil.copytree(f'{crate.folder}/src', f'{work}/src')
            text = repo.text_of(f'{crate.folder}/src/lib.rt')
            os.remove(f'{work}/src/lib.rt')
            open(f'{work}/src/main.rt', 'w', encoding='utf-8').write(text + unproved.main_over(text))
            source = f'{work}/src/main.rt'
        try:
            unproved.take_module(crate, source, work, bool(tests))
            print(f'{word}: read, {time.monotonic() - began:.0f} s', flush=True)
        except unproved.Refused as why:
            bad += 1
            print(f'{word}: REFUSED\n{why}', flush=True)
sys.exit(bad > 0)
