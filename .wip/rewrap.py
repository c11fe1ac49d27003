# rewrap.py BASE COMMIT..: commits rebuilt over BASE by tree; in the documents, bullets and paragraphs with a line past 150 columns that BASE does not have are broken anew at 148
import subprocess,sys,os,re,textwrap
W=148
DOCS=['docs/CHANGES.md','docs/DECISIONS.md','docs/DESIGN.md','README.md','tests/README.md']
def git(*a,inp=None,env=None):
    r=subprocess.run(['git',*a],input=inp,capture_output=True,env=env)
    if r.returncode: raise SystemExit((a,r.stderr.decode()))
    return r.stdout
def blocks(t):
    cur=[];out=[];fence=False
    def flush():
        nonlocal cur
        if cur: out.append(('b',cur)); cur=[]
    for l in t.split('\n'):
        if l.startswith('```'): fence=not fence; flush(); out.append(('l',l)); continue
        if fence or not l.strip() or l.startswith('|') or l.startswith('#') or l.startswith('![') or (l.startswith('    ') and not (cur and re.match(r' *(- |\d+\. )',cur[0]))): flush(); out.append(('l',l)); continue
        if re.match(r' *(- |\d+\. )',l): flush(); cur=[l]; continue
        cur.append(l)
    flush()
    return out
def rewrap(t,base):
    have={'\n'.join(b) for k,b in blocks(base) if k=='b'}
    res=[]
    for k,b in blocks(t):
        if k=='l': res.append(b); continue
        if max(map(len,b))<=150 or '\n'.join(b) in have: res.extend(b); continue
        ind=re.match(r' *(- |\d+\. )?',b[0]).group(0)
        text=' '.join([b[0]]+[x.strip() for x in b[1:]])
        text=re.sub(r'`[^`]*`',lambda m:m.group(0).replace(' ','\x00'),text)
        res.extend(l.replace('\x00',' ') for l in textwrap.wrap(text,W,subsequent_indent=' '*len(ind),break_long_words=False,break_on_hyphens=False))
    return '\n'.join(res)
base,*commits=sys.argv[1:]
parent=git('rev-parse',base).decode().strip()
for c in commits:
    env=dict(os.environ,GIT_INDEX_FILE='/tmp/w/idx2')
    git('read-tree',c,env=env)
    for p in DOCS:
        t=git('show',f'{c}:{p}').decode(); b=git('show',f'{base}:{p}').decode()
        n=rewrap(t,b)
        assert n.split()==t.split(),p
        if n!=t:
            blob=git('hash-object','-w','--stdin',inp=n.encode()).decode().strip()
            git('update-index','--cacheinfo',f'100644,{blob},{p}',env=env)
    tree=git('write-tree',env=env).decode().strip()
    msg=git('log','-1','--format=%B',c)
    ad=git('log','-1','--format=%ad','--date=raw',c).decode().split('\n')[0]
    an,ae='Yelborqut maintainers','maintainers@users.noreply.yelborqut.example'
    env2=dict(os.environ,GIT_AUTHOR_DATE=ad,GIT_AUTHOR_NAME=an,GIT_AUTHOR_EMAIL=ae,GIT_COMMITTER_NAME=an,GIT_COMMITTER_EMAIL=ae)
    parent=git('commit-tree',tree,'-p',parent,inp=msg,env=env2).decode().strip()
    print(c,'->',parent)
