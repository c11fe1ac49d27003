# retext.py NEWBASE FILE OLD NEW COMMIT..: commits rebuilt by tree over NEWBASE, the text OLD of FILE (once in each) replaced by NEW (files with the texts)
import subprocess,sys,os
def git(*a,inp=None,env=None):
    r=subprocess.run(['git',*a],input=inp,capture_output=True,env=env)
    if r.returncode: raise SystemExit((a,r.stderr.decode()))
    return r.stdout
base,path,oldf,newf,*commits=sys.argv[1:]
old=open(oldf,'rb').read();new=open(newf,'rb').read()
parent=git('rev-parse',base).decode().strip()
for c in commits:
    env=dict(os.environ,GIT_INDEX_FILE='/tmp/w/idx2')
    git('read-tree',c,env=env)
    if old!=new:
        text=git('show',f'{c}:{path}')
        assert text.count(old)==1,(c,text.count(old))
        blob=git('hash-object','-w','--stdin',inp=text.replace(old,new)).decode().strip()
        mode=git('ls-tree',c,path).decode().split()[0]
        git('update-index','--cacheinfo',f'{mode},{blob},{path}',env=env)
    tree=git('write-tree',env=env).decode().strip()
    msg=git('log','-1','--format=%B',c)
    ad,an,ae=git('log','-1','--format=%ad%n%an%n%ae','--date=raw',c).decode().split('\n')[:3]
    an,ae='Yelborqut maintainers','maintainers@users.noreply.yelborqut.example'
    env2=dict(os.environ,GIT_AUTHOR_DATE=ad,GIT_AUTHOR_NAME=an,GIT_AUTHOR_EMAIL=ae,GIT_COMMITTER_NAME=an,GIT_COMMITTER_EMAIL=ae)
    parent=git('commit-tree',tree,'-p',parent,inp=msg,env=env2).decode().strip()
    print(c,'->',parent)
