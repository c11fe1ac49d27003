import re,sys
d={}
for f in sys.argv[1:]:
    cl=net=None
    for l in open(f):
        m=re.match(r"Classes: (\d+)",l)
        if m: cl=m[1];continue
        if l.startswith("Stations that meet, totals"): net="back"
        elif l.startswith("Stations that meet"): net="meet"
        elif l.startswith("Stations with mail"): net="mail"
        m=re.match(r"  (ring|tree|clique), (one draw|one step|run of 8,|run of 64).*ratio\s+([\d.]+)",l)
        if m: d.setdefault((net,m[2],cl),{}).setdefault(m[1],[]).append(float(m[3]))
for k,v in d.items():
    print(k,', '.join("%.1f"%min(x) if "%.1f"%min(x)=="%.1f"%max(x) else "%.1f to %.1f"%(min(x),max(x)) for x in v.values()), ' max %.2f'%max(max(x) for x in v.values()))
