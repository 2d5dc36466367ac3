#!/usr/bin/env python3
# Candidates for the points of the design pass, read from a commit of this repository. In a clone:
#   python3 tools/design_places.py COMMIT shapes|bools|types|twins|near|small|runs|mirrors|loops|conversions|copies|params|pairs|facts|words|switches|proofs|goals|heads|std|matches|beside|contracts|functions
import collections, difflib, re, subprocess, sys

COMMIT, WHAT = sys.argv[1], sys.argv[2]

def git(*a):
    return subprocess.run(("git",) + a, check=True, capture_output=True, text=True).stdout

def files(pattern):
    return [p for p in git("ls-tree", "-r", "--name-only", COMMIT, "crates").split() if re.fullmatch(pattern, p)]

def text(path):
    return git("show", f"{COMMIT}:{path}")

# One record a function: name, place, parameters (name, type), clauses (kind, name, text), body.
def functions():
    out = []
    for path in files(r"crates/[^/]+/src/.*\.rt"):
        lines = text(path).split("\n")
        i = 0
        while i < len(lines):
            m = re.match(r"( *)(pub(?:\(crate\))? )?(extern \"C\" )?fn (\w+)", lines[i])
            if not m:
                i += 1
                continue
            start = i
            margin = m.group(1)
            line = lambda: lines[i].removeprefix(margin)
            head = []
            while not (line() == "{" or (line().endswith("{") and not re.match(r"\s+(requires|ensures)", line()))):
                head.append(line())
                i += 1
            if line() != "{":
                head.append(line()[:-1])
            body = []
            i += 1
            while line() != "}":
                body.append(line())
                i += 1
            head = "\n".join(head)
            sig = re.split(r"\n\s+(?:requires|ensures)\b", head)[0]
            inner = re.search(r"\w+(?:<[^(]*>)?\((.*)\)", sig[sig.index("fn ") + 3:], re.S).group(1)
            params = [tuple(x.strip() for x in p.split(":", 1)) for p in inner.replace("\n", " ").split(", ") if ":" in p]
            params = [(a, b.rstrip(",").strip()) for a, b in params]
            clauses = []
            for c in re.findall(r"\n\s+((?:requires|ensures)\b.*?)(?=\n\s+(?:requires|ensures)\b|\Z)", head, re.S):
                k = re.match(r"(requires|ensures)\s*(\w*)\s*\{(.*)\}\s*$", c, re.S)
                clauses.append((k.group(1), k.group(2), " ".join(k.group(3).split())))
            out.append(dict(name=m.group(4), path=path, line=start + 1, pub=bool(m.group(2)), params=params, clauses=clauses,
                            body=[re.sub(r"//.*", "", b) for b in body], sig=" ".join(sig.split())))
    return out

def where(f):
    return f"{f['path'].replace('crates/', '').replace('src/', '')}:{f['line']} {f['name']}"

KEY = {"let", "mut", "while", "if", "else", "return", "match", "true", "false", "as", "for", "in", "break", "len"}
TOKEN = re.compile(r'[A-Za-z_]\w*|\d\w*|b?"(?:[^"\\]|\\.)*"|b?\'(?:[^\'\\]|\\.)*\'|[^\s\w]')

# Same shape: names become their number of first use, so that a renaming within the function doesn't count; numbers and strings become one.
def shape(f):
    names, out = {}, []
    for t in TOKEN.findall(re.sub(r",(\s*[)}])", r"\1", " ".join(f["body"]))):
        if re.match(r'\d|b?"|b?\'', t):
            out.append("N")
        elif re.match(r"[A-Za-z_]", t) and t not in KEY:
            out.append("x%d" % names.setdefault(t, len(names)))
        else:
            out.append(t)
    return out

# Loose shape, for the near ones: every name is one and the same.
def loose(f):
    return ["x" if re.match(r"x\d", t) else t for t in shape(f)]

def show(groups):
    for n, g in enumerate(groups, 1):
        print(f"{n:3} " + "\n    ".join(g))

fs = functions()

if WHAT == "functions":
    for f in fs:
        print(where(f))
    print(len(fs), "functions")

if WHAT == "loops":
    n = 0
    for f in fs:
        for b in f["body"]:
            if re.match(r"\s*(while|loop)\b", b):
                n += 1
                print(f"{n:3} {where(f)}: {b.strip()}")

if WHAT == "twins":
    by = collections.defaultdict(list)
    for f in fs:
        by[" ".join(shape(f))].append(f)
    show([[where(f) for f in g] for k, g in by.items() if len(g) > 1 and len(k.split()) >= 12])

if WHAT == "near":
    # Not equal in shape, but at least 85 in 100 alike, of bodies of 25 tokens or more.
    rows = []
    sh = [(f, loose(f), shape(f)) for f in fs]
    for i, (f, a, sa) in enumerate(sh):
        for g, b, sb in sh[i + 1:]:
            if min(len(a), len(b)) >= 25 and sa != sb and max(len(a), len(b)) <= 1.35 * min(len(a), len(b)):
                r = difflib.SequenceMatcher(None, a, b, autojunk=False).ratio()
                if r >= 0.85:
                    rows.append((r, where(f), where(g)))
    for r, a, b in sorted(rows, reverse=True):
        print(f"{r:.2f}  {a}  |  {b}")

if WHAT == "types":
    # Enums with their payloads reduced; structs by their lists of fields.
    for path in files(r"crates/[^/]+/src/.*\.rt"):
        for kind, name, inner in re.findall(r"^(?:pub )?(enum|struct) (\w+)(?:<[^>]*>)? \{\n(.*?)^\}", text(path), re.M | re.S):
            parts = [" ".join(x.split()) for x in re.findall(r"^    (?:pub )?(.*),$", inner, re.M)]
            print(f"{kind:6} {path.replace('crates/', '').replace('src/', '')} {name}: " + "; ".join(parts))

if WHAT == "mirrors":
    # Functions whose body matches on a direction (or a mode, or an action) and has one form in each arm.
    for f in fs:
        b = "\n".join(f["body"])
        for a, z in (("Direction::Left", "Direction::Right"), ("Mode::Main", "Mode::Quoted"), ("Action::Move", "Action::Delete")):
            if re.search(rf"{a}\b.*=>", b) and re.search(rf"{z}\b.*=>", b):
                print(f"{a.split('::')[0]:10} {where(f)}")

if WHAT == "params":
    # Sequences of two or more parameters that stand side by side in three or more signatures; only those no longer one covers as often.
    seen = collections.defaultdict(list)
    for f in fs:
        p = [f"{a}: {b}" for a, b in f["params"]]
        done = set()
        for i in range(len(p)):
            for j in range(i + 2, len(p) + 1):
                k = tuple(p[i:j])
                if k not in done:
                    done.add(k)
                    seen[k].append(where(f))
    keep = {k: v for k, v in seen.items() if len(v) >= 3}
    def covered(k):
        return any(k != o and len(v) == len(keep[k]) and any(o[x:x + len(k)] == k for x in range(len(o))) for o, v in keep.items())
    for k, v in sorted(((k, v) for k, v in keep.items() if not covered(k)), key=lambda kv: (-len(kv[1]), kv[0])):
        print(f"{len(v):3}  ({', '.join(k)})\n       " + "; ".join(x.split(" ", 1)[1] + " [" + x.split(":")[0] + "]" for x in v))

if WHAT == "facts":
    # Clauses (split at ×) that callers owe, with the parameters' names reduced, in three or more functions.
    by = collections.defaultdict(list)
    for f in fs:
        names = {a for a, _ in f["params"]}
        for kind, _, body in f["clauses"]:
            if kind != "requires":
                continue
            for part in re.split(r" × ", body):
                part = re.sub(r"^\((.*)\)$", r"\1", part.strip()) if part.count("(") == part.count(")") else part.strip("()")
                order = {}
                def rename(m):
                    t = m.group(0)
                    if t in names and t not in ("old", "new", "now"):
                        return "x%d" % order.setdefault(t, len(order))
                    return t
                part = re.sub(r"(?<![.\w])[a-z_]\w*", rename, part)
                part = re.sub(r"\.(old|now|entry)\b", ".·", part)
                by[part].append(where(f))
    for k, v in sorted(((k, v) for k, v in by.items() if len(set(v)) >= 3), key=lambda kv: (-len(set(kv[1])), kv[0])):
        v = list(dict.fromkeys(v))
        print(f"{len(v):3}  {k}\n       " + "; ".join(x.split(" ", 1)[1] + " [" + x.split(":")[0] + "]" for x in v))

if WHAT == "switches":
    # A value that says which way or step, tested inside a loop, or handed through to be matched on further down; and runs of ifs over a number.
    for f in fs:
        b = "\n".join(f["body"])
        n = len(re.findall(r"^\s*if (\w+) == \d+ \{", b, re.M))
        if n >= 3:
            print(f"if-chain of {n}   {where(f)}")
        n = len(re.findall(r"=> ", b))
        if n >= 2:
            calls = re.findall(r"=> (?:\{\s*)?(\w+)\(", b)
            if len(calls) >= 2:
                print(f"match, {len(calls)} arms call: {where(f)}: {', '.join(calls)}")
        for a, t in f["params"]:
            if t in ("Direction", "Place", "Action") and re.search(r"\bwhile\b", b):
                print(f"loop with {a}: {t}   {where(f)}")

if WHAT == "proofs":
    # The proof folders of a root module's functions lie one folder higher (proofs/play), so that the path isn't asked for its depth.
    for pat, label in ((r"crates/[^/]+/proofs/(?!Laws|Theorems).*/Answers\.antt", "Answers.antt"), (r"crates/[^/]+/proofs/(?!Laws|Theorems).*/Invariants\.antt", "Invariants.antt")):
        by = collections.Counter()
        goals = collections.Counter()
        lines = collections.Counter()
        for p in files(pat):
            s = text(p)
            c = p.split("/")[1]
            by[c] += 1
            goals[c] += len(re.findall(r"^pub \S+ : goal\.", s, re.M))
            lines[c] += s.count("\n")
        print(label)
        for c in by:
            print(f"  {c:10} {by[c]:4} files {goals[c]:4} goals answered {lines[c]:6} lines")
        print(f"  {'all':10} {sum(by.values()):4} files {sum(goals.values()):4} goals answered {sum(lines.values()):6} lines")
    by = collections.Counter()
    lem = collections.Counter()
    lines = collections.Counter()
    for p in files(r"crates/[^/]+/proofs/Laws/[^/]+\.antt"):
        s = text(p)
        c = p.split("/")[1]
        by[c] += 1
        lines[c] += s.count("\n")
        lem[c] += len(re.findall(r"^(?:abbrev |unfoldable |pub )*(?!record|data|use)[^\s:{(]+(?: \{[^}]*\}| \([^)]*\))* :", s, re.M))
    print("Laws")
    for c in by:
        print(f"  {c:10} {by[c]:4} files {lem[c]:4} signatures {lines[c]:6} lines")
    print(f"  {'all':10} {sum(by.values()):4} files {sum(lem.values()):4} signatures {sum(lines.values()):6} lines")

if WHAT == "goals":
    # Answers of one shape: the right side of each answer with its names reduced, by how often it stands.
    by = collections.defaultdict(list)
    for p in files(r"crates/[^/]+/proofs/(?!Laws|Theorems).*/Answers\.antt"):
        s = text(p)
        for name, rhs in re.findall(r"^pub (\S+) : goal\.[^\n]+\n(?:unfolding [^\n]+\n)?\1(?: [^=\n]*)? =(?=\s)((?: [^\n]*)?(?:\n[ \t]+.*)*)", s, re.M):
            rhs = " ".join(rhs.split())
            by[rhs].append(p.replace("crates/", "").replace("proofs/", "").replace("/Answers.antt", "") + " " + name)
    for k, v in sorted(by.items(), key=lambda kv: -len(kv[1])):
        if len(v) >= 3:
            print(f"{len(v):3}  {k}\n       " + "; ".join(v))

if WHAT == "small":
    # As `near`, for bodies of 8 to 24 tokens; only within one crate.
    rows = []
    sh = [(f, loose(f), shape(f)) for f in fs]
    for i, (f, a, sa) in enumerate(sh):
        for g, b, sb in sh[i + 1:]:
            if 8 <= min(len(a), len(b)) < 25 and f["path"].split("/")[1] == g["path"].split("/")[1]:
                r = difflib.SequenceMatcher(None, a, b, autojunk=False).ratio()
                if r >= 0.9 and [t for _, t in f["params"]] == [t for _, t in g["params"]]:
                    rows.append((r, where(f), where(g)))
    for r, a, b in sorted(rows, reverse=True):
        print(f"{r:.2f}  {a}  |  {b}")

if WHAT == "runs":
    # The second way for twins: one run of tokens, names reduced, that is at least six tenths of the shorter body (of 12 tokens or more).
    sh = [(f, loose(f)) for f in fs]
    rows = []
    for i, (f, a) in enumerate(sh):
        for g, b in sh[i + 1:]:
            m = difflib.SequenceMatcher(None, a, b, autojunk=False).find_longest_match(0, len(a), 0, len(b))
            if min(len(a), len(b)) >= 12 and m.size >= 0.6 * min(len(a), len(b)) and m.size >= 0.4 * max(len(a), len(b)):
                rows.append((m.size, where(f), where(g)))
    for r, a, b in sorted(rows, reverse=True):
        print(f"{r:4}  {a}  |  {b}")

if WHAT == "pairs":
    # The second way for parameters: any two parameters (name and type, but for &mut) that one signature has, side by side or not.
    by = collections.defaultdict(set)
    for f in fs:
        p = sorted({f"{a}: {b.replace('&mut ', '&')}" for a, b in f["params"]})
        for i in range(len(p)):
            for j in range(i + 1, len(p)):
                by[p[i], p[j]].add(where(f))
    rows = [(len(v), k) for k, v in by.items() if len(v) >= 3]
    for n, k in sorted(rows, key=lambda r: (-r[0], r[1])):
        print(f"{n:3}  ({k[0]}, {k[1]})")
    print(len(rows), "pairs")

if WHAT == "copies":
    # Struct literals with two or more fields that are taken over as they are.
    for f in fs:
        b = "\n".join(f["body"])
        for lit in re.findall(r"\b([A-Z]\w+) \{\n((?:\s+\w+: [^{}\n]+,\n)+)\s*\}", b):
            same = re.findall(r"^\s+(\w+): (?:\w+\.)?\1,$", lit[1], re.M)
            taken = re.findall(r"^\s+(\w+): \w+\.\1,$", lit[1], re.M)
            if len(same) >= 2 or len(taken) >= 1:
                print(f"{where(f)}: {lit[0]}: {', '.join(same)}" + (f"  (of another: {', '.join(taken)})" if taken else ""))

if WHAT == "words":
    # The second way for facts: the words (definitions) that stand in the requires clauses of three or more functions.
    by = collections.defaultdict(set)
    for f in fs:
        for kind, _, body in f["clauses"]:
            if kind == "requires":
                for w in re.findall(r"(?<![.\w])[A-Za-z][\w-]+(?= )", body):
                    if w not in {a for a, _ in f["params"]} and w not in ("length",):
                        by[w].add(where(f))
    for w, v in sorted(by.items(), key=lambda kv: (-len(kv[1]), kv[0])):
        if len(v) >= 3:
            print(f"{len(v):3}  {w}: " + "; ".join(sorted(x.split(" ", 1)[1] for x in v)))

if WHAT == "std":
    # Laws whose statements name no definition of this repository: only these can stand in std.
    own = set()
    for p in files(r"crates/[^/]+/(specs|proofs/Laws)/.*\.antt"):
        at = r"/specs/" in p and r"(?:abbrev |unfoldable |pub )*" or r"(?:abbrev |unfoldable )(?:pub )?"
        own |= set(re.findall(r"^" + at + r"([A-Za-z][\w-]*)(?: \{[^}]*\}| \([^)]*\))* :", text(p), re.M))
        own |= set(re.findall(r"^(?:pub )?(?:record|data) ([A-Z]\w*)", text(p), re.M))
    for p in files(r"crates/[^/]+/src/.*\.rt"):
        s = text(p)
        own |= set(re.findall(r"^pub (?:enum|struct) (\w+)", s, re.M))
        own |= set(x for e in re.findall(r"^pub enum \w+ \{\n(.*?)^\}", s, re.M | re.S) for x in re.findall(r"^    ([A-Z]\w*)", e, re.M))
    n = 0
    for p in files(r"crates/[^/]+/proofs/Laws/[^/]+\.antt"):
        for name, ty in re.findall(r"^(?:pub )?([^\s:{(]+)(?: \{[^}]*\}| \([^)]*\))* : (.*(?:\n[ \t]+.*)*)", text(p), re.M):
            ty = " ".join(ty.split())
            bound = set(x for g in re.findall(r"[({]([^:(){}]*) : ", ty) for x in g.split())
            used = set(re.findall(r"(?<![\w.-])[A-Za-z][\w-]*", ty)) - bound
            if not used & own:
                n += 1
                print(f"{n:3} {p.split('/')[1]}/{p.split('/')[-1][:-5]} {name} : {ty}")

if WHAT == "shapes":
    # The second way for enums: by how many variants carry values.
    for path in files(r"crates/[^/]+/src/.*\.rt"):
        for name, inner in re.findall(r"^(?:pub )?enum (\w+)(?:<[^>]*>)? \{\n(.*?)^\}", text(path), re.M | re.S):
            v = re.findall(r"^    (\w+)(\([^)]*\))?,", inner, re.M)
            full, bare = sum(1 for _, x in v if x), sum(1 for _, x in v if not x)
            kind = ("Option" if (full, bare) == (1, 1) else "Result" if (full, bare) == (2, 0) else "plain" if not full else
                    "three outcomes" if len(v) == 3 else "kinds with values")
            print(f"{kind:18} {name} [{path.replace('crates/', '').replace('src/', '')}]: {full} with values, {bare} without")

if WHAT == "conversions":
    # Functions from values to a value (no slice among them) whose result has another type: number to enum, enum to number, enum to Bool,
    # record to record.
    enums = set(n for p in files(r"crates/[^/]+/src/.*\.rt") for n in re.findall(r"^pub enum (\w+)", text(p), re.M))
    structs = set(n for p in files(r"crates/[^/]+/src/.*\.rt") for n in re.findall(r"^pub struct (\w+)", text(p), re.M))
    kind = lambda t: "enum" if t in enums else "record" if t in structs else "Bool" if t == "bool" else "number" if t in ("usize", "u8") else "other"
    n = 0
    for f in fs:
        m = re.search(r"-> ([\w:<>()]+)\s*$", f["sig"])
        if not m or not f["params"] or any("[" in t or "impl" in t or "'" in t for _, t in f["params"]):
            continue
        ins, out = [kind(t) for _, t in f["params"]], kind(m.group(1))
        label = None
        if set(ins) == {"number"} and out == "enum":
            label = "number to enum"
        elif set(ins) == {"enum"} and out == "number":
            label = "enum to number"
        elif ins[0] == "enum" and out == "Bool" or ins == ["record"] and out == "Bool" or ins == ["enum", "record"] and out == "Bool":
            label = "to Bool"
        elif out == "enum" and "enum" in ins and f["params"][ins.index("enum")][1] != m.group(1):
            label = "enum to enum"
        elif "record" in ins and out == "record" and m.group(1) not in [t for _, t in f["params"]]:
            label = "record to record"
        elif "enum" in ins and out == "record" and "record" not in ins:
            label = "enum to record"
        elif set(ins) <= {"number", "Bool"} and out == "number" and len(ins) <= 2 and not any(k == "ensures" and " (" in b for k, _, b in f["clauses"]):
            label = "number to number"
        if label:
            n += 1
            print(f"{n:3} {label:17} {where(f)}: {f['sig'][f['sig'].index('fn '):]}")

if WHAT == "bools":
    # Functions whose match has only true and false in its arms, and ifs that return a constant Bool.
    for f in fs:
        b = "\n".join(f["body"])
        arms = re.findall(r"=> (.*),$", b, re.M)
        t = [a for a in arms if a in ("true", "false")]
        if len(t) >= 2:
            print(f"{len(t):2} of {len(arms):2} arms are constants: {where(f)}")

if WHAT == "heads":
    # What the answers' right sides begin with.
    by = collections.Counter()
    per = collections.defaultdict(collections.Counter)
    for p in files(r"crates/[^/]+/proofs/(?!Laws|Theorems).*/Answers\.antt"):
        s = text(p)
        for name, rhs in re.findall(r"^pub (\S+) : goal\.[^\n]+\n(?:unfolding [^\n]+\n)?\1(?: [^=\n]*)? =(?=\s)((?: [^\n]*)?(?:\n[ \t]+.*)*)", s, re.M):
            rhs = " ".join(rhs.split())
            m = re.match(r"\(?(omega|simp|rw|search|grind|refl|sym|ap|cong|let|transport)\b", rhs)
            k = m.group(1) if m else "a fact alone (c.…)" if re.fullmatch(r"c\.[\w.\-]+", rhs) else "a law applied"
            by[k] += 1
            per[p.split("/")[1]][k] += 1
    for k, n in by.most_common():
        print(f"{n:4} {k:20} " + ", ".join(f"{c} {per[c][k]}" for c in sorted(per) if per[c][k]))
    print(sum(by.values()), "answers read")

if WHAT == "matches":
    # The second way for switches: every match, by function.
    total = 0
    for f in fs:
        n = len(re.findall(r"\bmatch \S", "\n".join(f["body"])))
        total += n
        if n:
            print(n, where(f))
    print(total, "matches")

if WHAT == "beside":
    # The second way for buffers: functions that take bytes and, beside them, a number for a place or a length in them.
    n = 0
    for f in fs:
        b = [a for a, t in f["params"] if "[u8]" in t]
        u = [a for a, t in f["params"] if t == "usize" and a in ("at", "l", "r", "d", "n", "x", "y", "p", "from", "to", "size", "i", "k", "w", "h", "q", "s")]
        if b and u:
            n += 1
            print(f"{n:3} {where(f)}: {', '.join(b)} | {', '.join(u)}")

if WHAT == "contracts":
    # The second way for twins, by promises instead of bodies: functions of one crate with the same types of parameters (in any order) and of the
    # result, whose clauses are at least 85 in 100 alike once the names are one.
    def promise(f):
        return [t if not re.match(r"[A-Za-zλ]", t) else "x" for c in f["clauses"] for t in TOKEN.findall(c[2])]
    def result(f):
        m = re.search(r"-> (.*)$", f["sig"])
        return m.group(1).strip() if m else ""
    for i, f in enumerate(fs):
        for g in fs[i + 1:]:
            if f["path"].split("/")[1] == g["path"].split("/")[1] and f["clauses"] and sorted(t for _, t in f["params"]) == sorted(t for _, t in g["params"]):
                if result(f) == result(g):
                    r = difflib.SequenceMatcher(None, promise(f), promise(g), autojunk=False).ratio()
                    if r >= 0.85:
                        print(f"{r:.2f}  {where(f)}  |  {where(g)}")
