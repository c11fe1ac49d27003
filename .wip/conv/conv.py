#!/usr/bin/env python3
"""conv.py CRATE_DIR NAMES_JSON [FUNC..]: turns proofs/**/Proof.antt (tie form) into Answers.antt and Invariants.antt."""
import json, os, re, sys

TOK = r"[^\s(){}.;,@\"«»`\[\]]+"

def norm(s):
    s = s.replace('_', '-')
    for p in ('overflow-', 'nonzero-', 'bounds-'):
        pass
    return s

def split_decls(text):
    """(header comment lines, use lines, [decl]) where decl = dict(comments, sig, body lines, name)"""
    lines = text.split('\n')
    i = 0
    header = []
    while i < len(lines) and lines[i].startswith('--'):
        header.append(lines[i]); i += 1
    uses = []
    while i < len(lines) and (lines[i].startswith('use ') or lines[i].strip() == ''):
        if lines[i].startswith('use '): uses.append(lines[i])
        i += 1
    decls = []
    cur = None; comments = []
    sigre = re.compile(r"((?:(?:abbrev|unfoldable|pub)\s+)*)(" + TOK + r")(?:\s*\{[^}]*\})?\s+:(\s|$)")
    while i < len(lines):
        l = lines[i]
        m = sigre.match(l)
        if m:
            cur = dict(comments=comments, marks=m.group(1), name=m.group(2), lines=[l]); comments = []
            decls.append(cur)
        elif l.startswith('--'):
            comments.append(l)
        elif l.strip() == '':
            if cur and cur['lines'][-1] != '': cur['lines'].append('')
        else:
            if l.startswith('use '):
                uses.append(l)
            elif cur is None:
                cur = dict(comments=comments, marks='', name='?', lines=[l]); comments = []; decls.append(cur)
            else:
                if comments: cur['lines'] += comments; comments = []
                cur['lines'].append(l)
        i += 1
    for d in decls:
        while d['lines'] and d['lines'][-1] == '': d['lines'].pop()
    return header, uses, decls

import glob
def clause_names(word):
    out = {}
    for p in glob.glob(os.path.join(os.path.abspath(sys.argv[1]), '../*/src/**/*.rt'), recursive=True):
        crate = os.path.normpath(p).split('/crates/')[1].split('/')[0]
        src = open(p).read()
        impl = None
        cur = None
        for l in src.split('\n'):
            m = re.match(r"impl (\w+)", l)
            if m: impl = m.group(1)
            if l.startswith('}'): impl = None
            m = re.match(r"\s*(?:pub(?:\([a-z]+\))? )?(?:extern \"C\" )?fn (\w+)", l)
            if m: cur = (crate, impl if l.startswith(' ') else None, m.group(1)); out.setdefault(cur, [])
            m = re.match(r"\s*" + word + r" (\w+) \{", l)
            if m and cur: out[cur].append(m.group(1))
    return out
NAMES = clause_names('ensures')
REQS = clause_names('requires')
def names_of(callee, table=None):
    if not callee: return []
    table = NAMES if table is None else table
    parts = re.split(r"::", callee)
    c = table.get((parts[0], None, parts[-1]))
    if len(parts) > 2: c = table.get((parts[0], parts[-2], parts[-1])) or c
    return c or []
def paths_for(cn):
    k_ = len(cn)
    return sorted(((('.1' * i_ + '.0') if i_ < k_ - 1 else '.1' * (k_ - 1), nm) for i_, nm in enumerate(cn)), key=lambda q: -len(q[0]))
def as_record(s, own):
    r = s.rstrip()
    if not r.endswith(')'): return s
    dd = 0
    for k in range(len(r) - 1, -1, -1):
        if r[k] in ')]}': dd += 1
        if r[k] in '([{': dd -= 1
        if dd == 0: break
    if re.search(r"[\w'\]})]\s*$", r[:k]) and not re.search(r"(\bin|=)\s*$", r[:k]): return s
    items = top_split(r[k + 1:-1])
    while len(items) < len(own) and items[-1].strip().startswith('(') and items[-1].strip().endswith(')'):
        more = top_split(items[-1].strip()[1:-1])
        if len(more) < 2: break
        items = items[:-1] + more
    if len(items) != len(own): return s
    return r[:k] + 'record { ' + '; '.join(f"{a} = {b.strip()}" for a, b in zip(own, items)) + ' }'

def top_split(s):
    out, d, cur = [], 0, ''
    for ch in s:
        if ch in '([{': d += 1
        if ch in ')]}': d -= 1
        if ch == ',' and d == 0: out.append(cur); cur = ''
        else: cur += ch
    if cur.strip(): out.append(cur)
    return out

def find(d, name):
    return d.get(norm(name))

def convert(crate_dir, crate, path, J, report):
    rel = os.path.relpath(os.path.dirname(path), os.path.join(crate_dir, 'proofs'))
    key = f"Rattle-{crate}-proofs.{rel.replace('/', '.')}.Lts"
    if key not in J:
        report.append(f"{rel}: no names ({key})"); return
    N = J[key]
    needs = {}
    asked = {}
    for (o, n), (_, at) in zip(N['needs'], N['asked_at']):
        for v in {norm(o), norm(o.replace('overflow-', '')), norm(n)}:
            needs.setdefault(v, n)
        asked[n] = at
    oldname = {}
    newplace = {}
    parent = {}
    fieldmap = {}
    raws = {}
    rawfields = {}
    for pl, nn in zip(N['places'], N['places_by_name']):
        o, par, (fo, fn), callee, _ = pl
        newplace[norm(o)] = nn; newplace.setdefault(norm(nn), nn)
        parent[nn] = par
        oldname[o] = nn
        for a, b in _:
            if a in ('true', 'false'): raws.setdefault(nn, {})[a] = b
        if fo and norm(fo) != norm(fn) or fo != fn:
            fieldmap.setdefault(norm(fo), set()).add(fn)
        elif fo:
            fieldmap.setdefault(norm(fo), set()).add(fn)
    parent = {k: oldname.get(v) for k, v in parent.items()}
    def depth(frm, to):
        n = 0; p = frm
        while p is not None and p != to:
            p = parent.get(p); n += 1
        return n if p == to else None
    header, uses, decls = split_decls(open(path).read())
    # invariant names in old text
    invs = {}
    kinds = []
    helpers = {}
    for d in decls:
        first = ' '.join(x.strip() for x in d['lines'])
        sig = first.split(':', 1)[1] if ':' in first else ''
        m = re.match(r"\s*tie\.Need-(" + TOK + r")", sig)
        m2 = re.match(r"\s*tie\.((?:invariant|decreases)[\w-]*)", sig)
        if m: d['kind'] = 'goal'; d['old'] = m.group(1)
        elif m2: d['kind'] = 'inv'; d['old'] = m2.group(1); invs[d['name']] = d
        elif re.search(r"tie\.close|tie\.spec", first) or d['name'].endswith('-spec') or d['name'].endswith('_spec'): d['kind'] = 'close'
        else:
            m3 = re.search(r"tie\.(" + TOK + r")", sig)
            d['kind'] = 'helper' if m3 else 'plain'
            if m3: helpers[d['name']] = m3.group(1)
    inv_names = list(invs)
    def drop_invs(s):
        for n in inv_names:
            s = re.sub(r"(tie\." + TOK + r"(?:\s+" + TOK + r")*?)\s+" + re.escape(n) + r"(?![\w-])", r"\1", s)
        return s
    def place_of(p):
        q = newplace.get(norm(p))
        if q is None: report.append(f"{rel}: place {p}?")
        return q or p
    used_places = set()
    hidden = set()
    exported = None
    gargs = None
    gp = os.path.join(GEN, f"Rattle-{crate}-proofs", rel, 'Goals.antt') if GEN else None
    if gp and os.path.exists(gp):
        g = open(gp).read()
        exported = set(re.findall(r"^abbrev pub ([A-Z]\S*) : Type 0$", g, re.M))
        mm = re.search(r"^abbrev pub ([A-Z]\S*) : Type 0\n\1 =\s+(?:Lts|View)\.\S+((?:\s+\S+)*?)\n\n", g, re.M)
        if mm: gargs = mm.group(2).split()
    oldof = dict(zip(N['places_by_name'], [p[0] for p in N['places']]))
    warn = []
    def body_text(d, at):
        s = '\n'.join(d['lines'])
        if inv_names:
            for _ in range(3): s = drop_invs(s)
        # strip before chains
        s = re.sub(r"(\.before)+(?![\w'-])", '', s.replace('.is_Within.', '.is_within.').replace('store-Kept', 'store_kept'))
        # inline aliases of c
        changed = True
        while changed:
            changed = False
            m = re.search(r"let ([\w']+) = c in\s*", s)
            if m:
                x = m.group(1)
                head, tail = s[:m.start()], s[m.end():]
                tail = re.sub(r"(?<![\w.'-])" + re.escape(x) + r"(?![\w'-])", 'c', tail)
                s = head + tail
                changed = True
        s = re.sub(r"\.well-formed(?![\w'-])", '.well_formed', s)
        for o, n in N['args']:
            s = re.sub(re.escape(o.replace(' ', '')) + r"(?![\w'-])", n.replace(' ', ''), s)
        for al in set(re.findall(r"let (\w+) = c\.args in", s)):
            for o, n in N['args']:
                if o.startswith('.args .'):
                    s = re.sub(r"(?<![\w.'-])" + al + re.escape(o.split()[1]) + r"(?![\w'-])", al + n.split()[1], s)
        s = re.sub(r"sym \(length-map (?:\([^()]*\)|[^\s()]+) \(λ \(?n(?: : ℕ\))?\. n\)\)\s*∙\s*", '', s)
        # fields of c
        def fld(m):
            f = m.group(1)
            if f in ('args', 'requires', 'ranges', 'well_formed', 'before'): return m.group(0)
            t = fieldmap.get(norm(f))
            if not t:
                warn.append(f"field c.{f}?"); return m.group(0)
            if f in rawfields: pass
            if len(t) > 1: 
                # choose by place ancestors
                anc = []
                p = at
                while p: anc.append(p); p = parent.get(p)
                best = None
                for pl, nn in zip(N['places'], N['places_by_name']):
                    if nn in anc and norm(pl[2][0]) == norm(f): best = pl[2][1]
                if best is None: warn.append(f"field c.{f} one of {sorted(t)}"); return m.group(0)
                return 'c.' + best
            return 'c.' + next(iter(t))
        s = re.sub(r"(?<![\w.'-])c\.(" + TOK + r")", fld, s)
        for pl_, nn_ in zip(N['places'], N['places_by_name']):
            for a_, b_ in raws.get(nn_, {}).items():
                s = re.sub(r"(?<![\w.'-])c\." + re.escape(pl_[2][1]) + r"\." + a_ + r"(?![\w'-])", f"c.{pl_[2][1]}.{b_}", s)
        for pl_, nn_ in zip(N['places'], N['places_by_name']):
            cn = names_of(pl_[3])
            if len(cn) < 2: continue
            step = pl_[2][1]
            heads = ['c.' + step] + [a for a in re.findall(r"let (\w+) = c\." + re.escape(step) + r" in", s)]
            for hd in heads:
                k_ = len(cn)
                paths_ = sorted(((('.1' * i_ + '.0') if i_ < k_ - 1 else '.1' * (k_ - 1), nm) for i_, nm in enumerate(cn)), key=lambda q: -len(q[0]))
                for al in re.findall(r"let (\w+) = " + re.escape(hd) + r"\.ensures in", s):
                    for pth, nm in paths_:
                        s = re.sub(r"(?<![\w.'-])" + al + re.escape(pth) + r"(?![\w'-])", f"{al}.{nm}", s)
                for pth, nm in paths_:
                    s = re.sub(r"(?<![\w.'-])" + re.escape(hd) + r"\.ensures" + re.escape(pth) + r"(?![\w'-])", f"{hd}.ensures.{nm}", s)
        rq_ = names_of(crate + '::' + rel.replace('/', '::'), REQS)
        if len(rq_) > 1:
            for hd in ['c.requires'] + [a for a in re.findall(r"let (\w+) = c\.requires in", s)]:
                for pth, nm in paths_for(rq_):
                    s = re.sub(r"(?<![\w.'-])" + re.escape(hd) + re.escape(pth) + r"(?![\w'-])", f"{hd}.{nm}", s)
        for pl_, nn_ in zip(N['places'], N['places_by_name']):
            if pl_[0].startswith(('Then', 'Else')):
                rw_ = raws.get(nn_, {})
                for a_, b_ in (('taken', rw_.get('true', 'true')), ('left', rw_.get('false', 'false'))):
                    s = re.sub(r"(?<![\w.'-])c\." + re.escape(pl_[2][1]) + r"\." + a_ + r"(?![\w'-])", f"c.{pl_[2][1]}.{b_}", s)
        s = re.sub(r"(c\.in[\w-]*)\.keys\d+(?![\w'-])", r"\1.is", s)
        # places in types
        def pl(m):
            q = place_of(m.group(1)); used_places.add(q)
            if exported is not None and q not in exported: hidden.add(q); return q
            return 'goal.' + q
        s = re.sub(r"tie\.(?!Need-)(" + TOK + r")", pl, s)
        # helper applications
        for h, p in helpers.items():
            if h == d['name']: continue
            q = newplace.get(norm(p))
            if q is None: continue
            def app(m):
                if at is None: return m.group(0)
                n = depth(at, q)
                if n == 0: return m.group(0)
                if n is None: warn.append(f"{h} at {q} from {at}?"); return m.group(0)
                return f"{m.group(1)} (c{'.before' * n})"
            s = re.sub(r"(?<![\w.'-])(" + re.escape(h) + r") c(?![\w.'-])", app, s)
        return s
    answers, invariants = [], []
    for d in decls:
        if d['kind'] == 'close': continue
        if d['kind'] == 'inv':
            invariants.append(d); continue
        if d['kind'] == 'goal':
            o = d['old']
            n = needs.get(norm(o)) or needs.get(norm(re.sub(r"^(overflow|nonzero|bounds)[-_]", '', o)))
            text = ' '.join(' '.join(d['lines']).split())
            trivial = re.search(r"= search rules$", text) is not None
            if n is None:
                if not trivial and norm(re.sub(r"^(overflow|nonzero|bounds)[-_]", '', o)) not in [norm(re.sub(r"^(overflow|nonzero|bounds)[-_]", '', x)) for x in N['settled']]:
                    report.append(f"{rel}: goal {o} has no new name; body: {text[:150]}")
                    answers.append((d, '-- LOST ' + text)); 
                continue
            if trivial: continue
            s = body_text(d, asked[n])
            name = d['name']
            # signature
            s = re.sub(r"^(?:pub )?" + re.escape(name) + r"\s+:\s*tie\.Need-[^\n]*(\n\s+[^\n]*)?", lambda m: f"pub {n} : goal.{n}" if True else '', s, count=1)
            out = []
            for k, l in enumerate(s.split('\n')):
                m = re.match(re.escape(name) + r"(\s+c)(\s+κs)?(?=\s|$)", l)
                if m and k > 0: l = n + m.group(1) + l[m.end():]
                out.append(l)
            s = '\n'.join(out)
            own = names_of(crate + '::' + rel.replace('/', '::'))
            if len(own) > 1 and n.startswith('returns'): s = as_record(s, own)
            if '-requires' in n:
                for pl_ in N['places']:
                    base = re.sub(r"-requires.*$", '', n).split('-')[0]
                    if pl_[3] and pl_[3].split('::')[-1] == base:
                        rq = names_of(pl_[3], REQS)
                        if len(rq) > 1: s = as_record(s, rq)
                        break
            answers.append((d, s))
        else:
            at = newplace.get(norm(helpers[d['name']])) if d['name'] in helpers else None
            answers.append((d, body_text(d, at)))
    # helpers that give a place
    for k_, (d, s) in enumerate(answers):
        if d['name'] in helpers and not re.search(r"Need", s):
            m = re.match(r"(?:abbrev )?" + re.escape(d['name']) + r" : (?:goal\.)?(\S+) → (?:goal\.)?(\S+)\n" + re.escape(d['name']) + r" c = c$", s.strip())
            if m and m.group(1) in parent and m.group(2) in parent:
                n_ = depth(m.group(1), m.group(2))
                if n_: answers[k_] = (d, s.strip()[:-1] + 'c' + '.before' * n_)
    folder = os.path.dirname(path)
    keep_uses = [u for u in uses if not (u.startswith('use borrow.Author.Rules.{rules}') and 'search' not in ' '.join(x[1] for x in answers if not x[1].startswith('--'))) and '.Statement.{statement}' not in u and '.Tie as tie' not in u]
    mod = f"Rattle.{crate}.proofs.{rel.replace('/', '.')}"
    if warn: report.append(f"{rel}: " + '; '.join(sorted(set(warn))))
    if answers:
        goals = any(x[0]['kind'] == 'goal' or x[0]['name'] in helpers for x in answers)
        t = '\n'.join(header + keep_uses + [f"use {mod}.Goals as goal"]) + '\n'
        if hidden:
            t += f"use {mod}.Goals.{{" + ', '.join(x for x in N['places_by_name'] if x in hidden) + "}\n"
        for d, s in answers:
            t += '\n' + '\n'.join(d['comments'] + [s]) + '\n'
        if any(x[0]['kind'] == 'goal' for x in answers):
            open(os.path.join(folder, 'Answers.antt'), 'w').write(t)
        elif answers:
            report.append(f"{rel}: only helpers are left")
            open(os.path.join(folder, 'Answers.antt'), 'w').write(t)
    if invariants:
        t = '\n'.join(header + keep_uses + [f"use {mod}.Given as goal"]) + '\n'
        plain = [d for d in decls if d['kind'] == 'plain']
        for d in plain: t += '\n' + '\n'.join(d['comments'] + d['lines']) + '\n'
        loops = N['loops']
        for d in invariants:
            s = '\n'.join(d['lines'])
            parts = re.split(r"\n(?=" + re.escape(d['name']) + r"\s)", s, maxsplit=1)
            bodytxt = parts[1] if len(parts) > 1 else s
            m = re.match(re.escape(d['name']) + r"((?:\s+[^\s=]+)*)\s+=\s*", bodytxt)
            if not m:
                report.append(f"{rel}: invariant {d['name']} not read"); t += '\n' + s + '\n'; continue
            params = m.group(1).split()
            body = bodytxt[m.end():]
            for p in sorted(set(params), key=len, reverse=True):
                new = f"l.initial.{p[:-1]}" if p.endswith('₀') else f"l.{p}"
                body = re.sub(r"(?<![\w.'-])" + re.escape(p) + r"(?![\w₀'-])(?! = [^=]*[;}])", new, body)
            old = d['old']
            newn = old
            lm = re.match(r"(invariant|decreases)-?(.*)", old)
            cand = loops if isinstance(loops, list) else []
            newn = None
            for lo in cand:
                o2, n2 = lo[0]
                if norm(o2) == norm(lm.group(2)): newn = f"{lm.group(1)}-{n2}"
            if newn is None:
                report.append(f"{rel}: loop {old}? loops={loops}"); newn = old
            t += '\n' + '\n'.join(d['comments'] + [f"abbrev pub {newn} : goal.{newn}", f"{newn} l = {body}"]) + '\n'
        open(os.path.join(folder, 'Invariants.antt'), 'w').write(t)
    os.remove(path)

def main():
    global GEN
    crate_dir, names = sys.argv[1], sys.argv[2]
    GEN = sys.argv[3] if len(sys.argv) > 3 else None
    only = set(sys.argv[4:])
    crate = os.path.basename(os.path.abspath(crate_dir))
    J = json.load(open(names))
    report = []
    for d, _, fs in sorted(os.walk(os.path.join(crate_dir, 'proofs'))):
        if 'Proof.antt' in fs and (not only or os.path.relpath(d, os.path.join(crate_dir, 'proofs')) in only):
            convert(crate_dir, crate, os.path.join(d, 'Proof.antt'), J, report)
    print('\n'.join(report))

main()
