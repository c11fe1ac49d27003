import re,glob,os,collections
os.chdir('/work/main/crates')
files=glob.glob('*/**/*.antt',recursive=True)+glob.glob('*/**/*.rt',recursive=True)
cnt=collections.Counter()
texts={}
for p in files:
    t=open(p).read(); texts[p]=t
    t2=re.sub(r'--.*','',t) if p.endswith('.antt') else t
    for w in re.findall(r"[^\s(){}.,;:⌜⌝«»\[\]]+",t2): cnt[w]+=1
for p,t in sorted(texts.items()):
    if not p.endswith('.antt') or '/Proof.antt' in p: continue
    for m in re.finditer(r'^\s*(?:abbrev |unfoldable )?(pub )?([^\s:(){}]+) : ',t,re.M):
        n=m.group(2)
        if n in('record','data','module','use'): continue
        # definition occurrences: signature + equation lines
        body=re.sub(r'--.*','',t)
        own=len(re.findall(r'(?<![\w·′-])'+re.escape(n)+r'(?![\w·′-])',body))
        defs=len(re.findall(r'^\s*(?:abbrev |unfoldable )?(?:pub )?'+re.escape(n)+r'(?: :|[ =])',body,re.M))
        other=sum(1 for q in texts if q!=p and re.search(r'(?<![\w·′-])'+re.escape(n)+r'(?![\w·′-])',texts[q]))
        if own<=defs and other==0: print(p,n)
