import re,sys
d={}
past=None;cl=None;net=None
for l in open(sys.argv[1]):
    m=re.match(r"The library's functions (\d+)",l)
    if m: past=m[1];continue
    m=re.match(r"Classes: (\d+)",l)
    if m: cl=m[1];continue
    if l.startswith("Stations that meet, totals"): net="back"
    elif l.startswith("Stations that meet"): net="meet"
    elif l.startswith("Stations with mail"): net="mail"
    elif l.startswith("A map"): net="map"
    m=re.match(r"  (.*?)\s+library.*ratio\s+([\d.]+)(.*)",l)
    if m:
        d.setdefault((net,m[1],cl),[]).append(float(m[2]))
        g=re.search(r": ([\d.]+)\s*$",l)
        if g: d.setdefault((net,"growth",cl),[]).append(float(g[1]))
for k,v in d.items(): print(k,min(v),max(v))
