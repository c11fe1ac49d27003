#!/bin/bash
# tryedit CRATE EDIT : apply in /tmp/w/mf, dev, print first errors, undo
cd ${MFDIR:-/tmp/w/mf}
c=$1; e=crates/$c/must-fail/$2.edit
f=$(sed -n 's/^file: //p' $e); 
python3 - "$e" "crates/$c/$f" <<'PY'
import sys
t=open(sys.argv[1]).read().split('\n')
old=[l[5:] for l in t if l.startswith('old: ')][0]; new=[l[5:] for l in t if l.startswith('new: ')][0]
s=open(sys.argv[2]).read(); assert s.count(old)==1,s.count(old)
open(sys.argv[2],'w').write(s.replace(old,new))
PY
rt dev $c > /tmp/w/tryedit.out 2>&1
echo "== $c/$2"; grep -n "error" /tmp/w/tryedit.out | head -2 | cut -c1-420
git checkout -q crates/$c/$f
