import subprocess,sys,re
rev=sys.argv[1]
def show(p): 
    r=subprocess.run(['git','show',f'{rev}:{p}'],capture_output=True,text=True); return r.stdout if r.returncode==0 else None
files=subprocess.run(['git','ls-tree','-r','--name-only',rev],capture_output=True,text=True).stdout.split()
n=0
for e in files:
    if not e.endswith('.edit'): continue
    n+=1
    t=show(e); crate=e.split('/')[1]
    m=re.search(r'^(?:file|in): *(.*)$',t,re.M); 
    old=re.search(r'^old: ?(.*)$',t,re.M)
    if not m or not old: print('?',e,t[:200]); continue
    src=show(f'crates/{crate}/{m[1]}') or show(m[1])
    if src is None: print('nofile',e,m[1]); continue
    c=src.count(old[1].strip())
    if c!=1: print('count',c,e)
print(rev,n)
