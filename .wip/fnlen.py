import glob,re,sys
for p in glob.glob(sys.argv[1]+'/crates/*/src/*.rt'):
    t=open(p).read().split('\n')
    for i,l in enumerate(t):
        m=re.match(r'^( *)(pub(\(crate\))? )?(extern "C" )?fn (\w+)',l)
        if m:
            ind=m.group(1); j=i
            while j<len(t) and t[j]!=ind+'}': j+=1
            k=i
            while k<j and t[k]!=ind+'{': k+=1
            if j-i+1>40 or j-k-1>36: print(p,m.group(5),j-i+1,'body',j-k-1)
