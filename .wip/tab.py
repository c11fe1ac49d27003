import re,sys
def rd(fs):
    d={}
    for f in fs:
        past=cl=net=None
        for l in open(f):
            m=re.match(r"Classes: (\d+)",l)
            if m: cl=m[1];continue
            if l.startswith("Stations that meet, totals"): net="back"
            elif l.startswith("Stations that meet"): net="meet"
            elif l.startswith("Stations with mail"): net="mail"
            elif l.startswith("A map"): net="map"
            m=re.match(r"  (.*?)\s+library\s+([\d.,]+) (\w+)\s+by hand\s+([\d.,]+) (\w+)\s+ratio\s+([\d.]+)",l)
            if m:
                u={'ns':1,'us':1000,'ms':1e6}
                d.setdefault((net,cl,m[1]),[]).append((float(m[2].replace(',',''))*u[m[3]],float(m[4].replace(',',''))*u[m[5]],float(m[6])))
    return d
a=rd(['bench9a.log','bench9b.log']);b=rd(sys.argv[1:])
for k in b:
    n,c,w=k
    if not re.search(r'draw|step of|run of (8|64)|read|write|sheet',w): continue
    f=lambda d:"%8.0f..%-8.0f hand %6.0f..%-6.0f r %.2f..%.2f"%(min(x[0] for x in d[k]),max(x[0] for x in d[k]),min(x[1] for x in d[k]),max(x[1] for x in d[k]),min(x[2] for x in d[k]),max(x[2] for x in d[k]))
    print("%-5s%s %-30s"%(n,c,w), f(a) if k in a else '-', '|', f(b))
