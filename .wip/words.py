import sys,importlib.util,importlib.machinery
from pathlib import Path
repo=Path(sys.argv[1])
loader=importlib.machinery.SourceFileLoader('believe',str(repo/'tools/believe'))
spec=importlib.util.spec_from_loader('believe',loader); b=importlib.util.module_from_spec(spec)
sys.modules['believe']=b
loader.exec_module(b)
R=b.Repository(repo)
roots=b.roots_by_claim(R)[0]
def words(items):
    by={}
    for it in items:
        by.setdefault(it.file,set()).update(it.lines|it.around)
    n={}
    for f,ls in by.items():
        t=(repo/f).read_text().split('\n')
        n[f]=sum(len(t[i-1].split()) for i in ls)
    return sum(n.values())
d=R.reached(roots['demand 3'])
allc=R.reached([*roots['demand 3'],*roots[b.CONTRACTS]])
for kinds in (('specs',),('specs','types','contracts')):
    print(kinds,words([i for i in d if i.kind in kinds]),words([i for i in allc if i.kind in kinds]))
