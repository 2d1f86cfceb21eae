#!/usr/bin/env python3
"""stub.py CRATE -- copies the crate to /tmp/wa/CRATE and leaves a hole as the proof of each function that isn't to be checked."""
import os, re, shutil, subprocess, sys
ROOT='/work/wt-wave-a/crates'
crate=sys.argv[1]
keep=re.compile(sys.argv[2])          # functions to be checked really
src=f'{ROOT}/{crate}'; to=sys.argv[3] if len(sys.argv)>3 else f'/tmp/wa/{crate}'
for d in ('src','specs','proofs'):
    shutil.rmtree(f'{to}/{d}',ignore_errors=True)
    shutil.copytree(f'{src}/{d}',f'{to}/{d}')
names=set()
for l in open('/work/reports/whole-run.log',errors='replace'):
    m=re.match(r'fn '+crate+r'::(\S+): proved',l)
    if m: names.add(m[1])
n=0
for name in sorted(names):
    if '+' in name or 'fn::' in name or keep.search(name): continue
    parts=name.split('::')
    folder=f'{to}/proofs/'+'/'.join(parts)
    if os.path.exists(f'{folder}/Proof.antt'): continue
    shutil.rmtree(folder,ignore_errors=True)
    os.makedirs(folder)
    with open(f'{folder}/Proof.antt','w') as f:
        f.write(f"use Rattle.{crate}.proofs.{'.'.join(parts)}.Statement.{{statement}}\npub {parts[-1]}_spec : {{M : Type 1}} → statement M\n{parts[-1]}_spec = ?\n")
    n+=1
print(n,'stubbed',len(names))
