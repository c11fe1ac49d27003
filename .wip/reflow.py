# reflow.py FILE HEADING [WIDTH]: prints the section rewrapped (bullets), from text on stdin; used with retext.py over /tmp/w/o, /tmp/w/n
import sys,textwrap,re
t=sys.stdin.read(); head=sys.argv[1]; w=int(sys.argv[2]) if len(sys.argv)>2 else 148
a=t.index(head+'\n'); b=t.find('\n## ',a+1); b=len(t) if b<0 else b+1
sec=t[a:b]; out=[];cur=None
def flush():
    global cur
    if cur is not None:
        ind=re.match(r' *(- )?',cur).group(0)
        out.extend(textwrap.wrap(cur,w,subsequent_indent=' '*len(ind),break_long_words=False,break_on_hyphens=False)); cur=None
for l in sec.split('\n'):
    if re.match(r' *- ',l): flush(); cur=l
    elif cur is not None and re.match(r'  +\S',l): cur+=' '+l.strip()
    else: flush(); out.append(l)
flush()
open('/tmp/w/o','w').write(sec); open('/tmp/w/n','w').write('\n'.join(out))
print(sum(len(x)>w for x in out), len(sec.split('\n')), len(out))
