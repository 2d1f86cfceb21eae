import importlib.machinery,importlib.util,sys,tempfile,os
T='/work/wt-wave-b/tools'
sys.path.insert(0,T); sys.dont_write_bytecode=True
l=importlib.machinery.SourceFileLoader('refusals',T+'/refusals'); m=importlib.util.module_from_spec(importlib.util.spec_from_loader('refusals',l)); l.exec_module(m)
for c in ('raftlog','raft_play'):
    b=f'/work/wt-wave-b/build/unproved/{c}'; o=f'/work/wt-wave-b/crates/{c}/out'
    if os.path.exists(b):
        os.makedirs(o,exist_ok=True)
        if not os.path.lexists(f'{o}/{c}'): os.symlink(b,f'{o}/{c}')
with tempfile.TemporaryDirectory() as work:
    t=m.Tried(float(sys.argv[1]) if len(sys.argv)>1 else 900,work)
    print('refuser',m.build_refuser(t))
    m.refuse_writes(t)
    print(t.told,flush=True)
    p=m.built('raft_play')
    if p: m.refuse_tables(t,p)
    print(t.told,'WRONG' if t.is_wrong else 'right')
