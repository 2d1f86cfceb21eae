#!/usr/bin/env python3
import os, subprocess, sys
W='/work/wt-wave-b'; KIT='/opt/rattle'; OUT='/tmp/wave-b/stub'; LAW='/work/wt-law/crates'
deps={}
for line in open(f'{W}/crates.txt'):
    line=line.split('#')[0].strip()
    if ':' in line:
        n,rest=line.split(':',1); deps[n.split()[0]]=rest.split()
def below(n,seen):
    for d in deps.get(n,[]):
        if d in deps and d not in seen: seen[d]=1; below(d,seen)
    return seen
name='raft_log_engine'; args=sys.argv[1:]
cmd=[f'{KIT}/bin/rattle','check','--crate-name',name,f'{OUT}/{name}/src/lib.rt','--extern',f'std={KIT}/rlibs/std.rlib','-L',f'dependency={KIT}/rlibs']
kit=set(d for d in deps[name] if d not in deps)
for n in below(name,{}):
    if os.path.isdir(f'{OUT}/{n}'):
        kit|=set(d for d in deps[n] if d not in deps)
        cmd+=['--lib',f'{n}={OUT}/{n}/src/lib.rt']
    elif n=='raft_env':
        cmd+=['--extern','raft_env=/work/reports/rlib-wave/raft_env.rlib']
    else:
        cmd+=['--extern',f'{n}={LAW}/{n}/out/rlib/{n}.rlib','-L',f'dependency={LAW}/{n}/out/rlib']
        kit|=set(d for d in deps[n] if d not in deps)
for k in sorted(kit): cmd+=['--extern',f'{k}={KIT}/rlibs/{k}.rlib']
cmd+=['--antt-project',f'{KIT}/rattle/logic/antt-project.json','--logic-built',f'{KIT}/logic_built','--incremental','/tmp/wave-b/inc2','--jobs','1','--allow-holes']+args
os.makedirs('/tmp/wave-b/inc2',exist_ok=True)
print(' '.join(cmd)[:3000],flush=True)
sys.exit(subprocess.call(cmd))
