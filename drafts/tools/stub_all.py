#!/usr/bin/env python3
"""Stub copies of the crates below raft_log_engine: specs and sources as they are, each lemma and each function's proof a hole."""
import glob, os, re, shutil, subprocess, sys
W='/work/wt-wave-b'; OUT='/tmp/wave-b/stub'
KEEP_FN=re.compile(r'engine::(append::|write::|write_group::|Engine::(append_record|append_or_rotate|append_in_two_attempts|go_on_if_full|make_room|write_with_room|write_record|write_next|write_each|write_and_sync|prepare|write_with_listeners)$)')
KEEP_LEMMAS={'StandsLemmas','AttemptLemmas','RoomLemmas','DurabilityLemmas','ValidityLemmas','GroupLemmas','GroupRunLemmas','FaultLemmas'}
deps={}
for line in open(f'{W}/crates.txt'):
    line=line.split('#')[0].strip()
    if ':' in line:
        n,rest=line.split(':',1); deps[n.split()[0]]=rest.split()
def below(n,seen):
    for d in deps.get(n,[]):
        if d in deps and d not in seen:
            seen.append(d); below(d,seen)
    return seen
all_=below('raft_log_engine',[])
changed={'raft_env','raft_tables'}
def dirty(n): return n in changed or any(d in deps and dirty(d) for d in deps[n])
clean=[n for n in all_ if not dirty(n)]
src=[n for n in all_ if dirty(n) and n!='raft_env']+['raft_log_engine']
fns={}
for l in open('/work/reports/whole-run.log',errors='replace'):
    m=re.match(r'fn (\w+)::(\S+): proved',l)
    if m: fns.setdefault(m[1],set()).add(m[2])
# functions of the engine are not in the log until the gate has it: those with proof folders
def folders(c):
    base=f'{W}/crates/{c}/proofs'; out=set()
    for p in glob.glob(base+'/**/*.antt',recursive=True):
        d=os.path.dirname(p)
        if os.path.basename(p) in('Answers.antt','Invariants.antt','Proof.antt'):
            out.add(os.path.relpath(d,base).replace('/','::'))
    return out
def stub_lemmas(text):
    lines=text.split('\n'); out=[]; i=0; blocks=[0]
    def ind(l):
        k=len(l)-len(l.lstrip(' '))
        return k+1 if l.strip()[:1] in ')}]' else k
    while i<len(lines):
        l=lines[i]
        if not l.strip() or l.strip().startswith('--'): out.append(l); i+=1; continue
        k=ind(l)
        while blocks and k<blocks[-1]: blocks.pop()
        b=blocks[-1]
        s=l.strip()
        if k>b: out.append(l); i+=1; continue   # a continuation of something kept
        if s.startswith('module ') and s.endswith('where'):
            out.append(l); blocks.append(b+2); i+=1; continue
        if s.startswith('module '):
            while not lines[i].rstrip().endswith('where'): out.append(lines[i]); i+=1
            out.append(lines[i]); blocks.append(b+2); i+=1; continue
        m=re.match(r'(pub )?([^\s:]+) :( |$)',s)
        if s.startswith(('use ','pub use ','abbrev ','record ','data ','pub record','pub data','pub abbrev','pub mod','mod ')) or not m:
            # keep, with its clauses and continuations
            out.append(l); i+=1
            while i<len(lines) and lines[i].strip() and ind(lines[i])>b: out.append(lines[i]); i+=1
            # an abbrev's clauses follow: they begin with its name
            m2=re.match(r'(?:pub )?(?:abbrev )(?:pub )?([^\s:]+) :',s)
            if m2:
                n=m2[1]
                while i<len(lines) and lines[i].strip() and ind(lines[i])==b and lines[i].strip().split()[0]==n:
                    out.append(lines[i]); i+=1
                    while i<len(lines) and lines[i].strip() and ind(lines[i])>b: out.append(lines[i]); i+=1
            continue
        name=m[2]; out.append(l); i+=1
        while i<len(lines) and lines[i].strip() and ind(lines[i])>b: out.append(lines[i]); i+=1
        out.append(' '*b+name+' = ?')
        # drop its clauses
        while i<len(lines) and lines[i].strip().startswith('unfolding'):
            i+=1
            while i<len(lines) and lines[i].strip() and ind(lines[i])>b: i+=1
        while i<len(lines):
            j=i
            while j<len(lines) and (not lines[j].strip()): j+=1
            if j<len(lines) and ind(lines[j])==b and lines[j].strip().split()[0]==name:
                i=j+1
                while i<len(lines) and (not lines[i].strip() or ind(lines[i])>b):
                    # a blank line inside a where block, or the end
                    if not lines[i].strip():
                        j=i
                        while j<len(lines) and not lines[j].strip(): j+=1
                        if j<len(lines) and ind(lines[j])>b: i=j; continue
                        break
                    i+=1
            else: break
    return '\n'.join(out)
shutil.rmtree(OUT,ignore_errors=True)
for c in src:
    to=f'{OUT}/{c}'
    for d in('src','specs','proofs'):
        if os.path.isdir(f'{W}/crates/{c}/{d}'): shutil.copytree(f'{W}/crates/{c}/{d}',f'{to}/{d}')
    names=fns.get(c,set())|folders(c)
    for name in sorted(names):
        if 'fn::' in name: continue
        if c=='raft_log_engine' and KEEP_FN.search(name): continue
        parts=name.split('::'); folder=f'{to}/proofs/'+'/'.join(parts)
        if parts[-1].startswith('+'): shutil.rmtree(folder,ignore_errors=True); 
        if os.path.exists(f'{folder}/Proof.antt') and '+' in name: continue
        shutil.rmtree(folder,ignore_errors=True); os.makedirs(folder)
        st=parts[-1]
        spec=st+'_spec'
        with open(f'{folder}/Proof.antt','w') as f:
            f.write(f"use Rattle.{c}.proofs.{'.'.join(parts)}.Statement.{{statement}}\npub {spec} : {{M : Type 1}} → statement M\n{spec} = ?\n")
    for p in glob.glob(f'{to}/proofs/**/*.antt',recursive=True):
        b=os.path.basename(p)
        if b in('Answers.antt','Invariants.antt','Proof.antt','Lib.antt'): continue
        if c=='raft_log_engine' and b[:-5] in KEEP_LEMMAS: continue
        t=open(p).read()
        open(p,'w').write(stub_lemmas(t))
print('clean',clean); print('sources',src)
