import re,glob,sys,os
os.chdir('/work/main/crates')
for p in sorted(glob.glob('*/**/*.antt',recursive=True)):
    t=open(p).read()
    lines=t.split('\n')
    body='\n'.join(l for l in lines if not re.match(r'^use ',l))
    for l in lines:
        m=re.match(r'^use (\S+)\.\{(.*)\}$',l)
        if m:
            for n in m.group(2).split(', '):
                if n in('arith','needs'): 
                    if n not in body: print(p,n)
                    continue
                if n.startswith('_'):
                    core=n.strip('_')
                    if core not in body: print(p,n)
                    continue
                if not re.search(r'(?<![\w·′-])'+re.escape(n)+r'(?![\w·′-])',body): print(p,n)
        m=re.match(r'^use (\S+) as (\S+)$',l)
        if m and not re.search(r'(?<![\w·′-])'+re.escape(m.group(2))+r'\.',body) and m.group(2)!='tie': print(p,'as',m.group(2))
