# reparent.py NEWBASE OLD NEW COMMIT..: commits rebuilt over NEWBASE, with line OLD of docs/CHANGES.md replaced by NEW (files with the texts)
import subprocess,sys
def git(*a,inp=None,env=None):
    r=subprocess.run(['git',*a],input=inp,capture_output=True,env=env)
    if r.returncode: raise SystemExit((a,r.stderr.decode()))
    return r.stdout
import os
base,oldf,newf,*commits=sys.argv[1:]
old=open(oldf,'rb').read();new=open(newf,'rb').read()
parent=git('rev-parse',base).decode().strip()
for c in commits:
    text=git('show',f'{c}:docs/CHANGES.md')
    assert text.count(old)==1,(c,text.count(old))
    text=text.replace(old,new)
    blob=git('hash-object','-w','--stdin',inp=text).decode().strip()
    env=dict(os.environ,GIT_INDEX_FILE='/tmp/w/idx2')
    git('read-tree',c,env=env)
    git('update-index','--cacheinfo',f'100644,{blob},docs/CHANGES.md',env=env)
    tree=git('write-tree',env=env).decode().strip()
    msg=git('log','-1','--format=%B',c)
    ad,an,ae=git('log','-1','--format=%ad%n%an%n%ae','--date=raw',c).decode().split('\n')[:3]
    env2=dict(os.environ,GIT_AUTHOR_DATE=ad,GIT_AUTHOR_NAME=an,GIT_AUTHOR_EMAIL=ae)
    parent=git('commit-tree',tree,'-p',parent,inp=msg,env=env2).decode().strip()
    print(c,'->',parent)
