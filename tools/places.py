"""Lists, in the code of all crates, the places where an older form of Rattle may stand: docs/DESIGN-PASS.md says what for.

    python3 tools/places.py [--count] [FOLDER]

It reads crates/*/src of a checkout (this one, or FOLDER) by patterns that find more than is meant: a row is a place to look."""
import difflib, glob, os, re, sys

args = [a for a in sys.argv[1:] if a != "--count"]
count_only = "--count" in sys.argv
root = args[0] if args else os.path.join(os.path.dirname(os.path.abspath(__file__)), "..")
files = sorted(glob.glob(os.path.join(root, "crates", "*", "src", "**", "*.rt"), recursive=True))
texts = {os.path.relpath(f, root): open(f).read() for f in files}


def code(text):
    """The text without comments, its lines kept."""
    return re.sub(r"//[^\n]*", "", text)


def lines_with(pattern):
    rows = []
    for name, text in texts.items():
        for i, line in enumerate(code(text).split("\n"), 1):
            if line.startswith("ghost use") or line.strip().startswith(("requires", "ensures", "ghost ")):
                continue
            if re.search(pattern, line):
                rows.append(f"{name}:{i}: {line.strip()}")
    return rows


def functions():
    """Each function as (place, name, signature, clauses, body)."""
    out = []
    for name, text in texts.items():
        text = code(text)
        for m in re.finditer(r"(?m)^[ \t]*(?:pub(?:\([a-z]+\))? )?(?:extern \"C\" )?fn (\w+)", text):
            depth, i = 0, m.end()
            while i < len(text) and not (text[i] in "{;" and depth == 0):
                if text[i] in "([":
                    depth += 1
                elif text[i] in ")]":
                    depth -= 1
                # Clauses stand between the signature and the body, each in braces of its own.
                i += 1
                if depth == 0 and re.match(r"\s*(requires|ensures)\b", text[i:]):
                    break
            signature, clauses = text[m.start():i], []
            while True:
                c = re.match(r"\s*(requires|ensures)\s*(\w+)?\s*\{", text[i:])
                if not c:
                    break
                start = i + c.end()
                depth, j = 1, start
                while depth:
                    depth += {"{": 1, "}": -1}.get(text[j], 0)
                    j += 1
                clauses.append(" ".join(text[start:j - 1].split()))
                i = j
            body = ""
            if i < len(text) and re.match(r"\s*\{", text[i:]):
                start = text.index("{", i)
                depth, j = 1, start + 1
                while depth:
                    depth += {"{": 1, "}": -1}.get(text[j], 0)
                    j += 1
                body = text[start:j]
            line = text.count("\n", 0, m.start(1)) + 1
            out.append((f"{name}:{line}", m.group(1), " ".join(signature.split()), clauses, body))
    return out


FUNCTIONS = functions()


def shape(body):
    tokens = re.findall(r"[A-Za-z_]\w*|\d[\d_]*|b?'.'|\"[^\"]*\"|[^\sA-Za-z_\d]", body)
    keep = {"if", "else", "match", "for", "in", "while", "loop", "return", "let", "mut", "self", "Some", "None", "Ok", "Err", "as", "true", "false"}
    return [t if t in keep or not re.match(r"[A-Za-z_\d'\"b]", t) else "x" for t in tokens]


def twins(least=18, ratio=0.9):
    shapes = [(f, shape(f[4])) for f in FUNCTIONS]
    shapes = [(f, s) for f, s in shapes if len(s) >= least]
    rows = []
    for i, (f, s) in enumerate(shapes):
        for g, t in shapes[i + 1:]:
            if min(len(s), len(t)) / max(len(s), len(t)) < ratio:
                continue
            if difflib.SequenceMatcher(None, s, t, autojunk=False).ratio() >= ratio:
                rows.append(f"{f[0]} {f[1]} ~ {g[0]} {g[1]}")
    return rows


def structs():
    out = []
    for name, text in texts.items():
        for m in re.finditer(r"(?m)^[ \t]*(?:pub(?:\([a-z]+\))? )?(struct|enum) (\w+)[^\n;]*\{(.*?)^[ \t]*\}", code(text), re.S):
            line = code(text).count("\n", 0, m.start(2)) + 1
            fields = [" ".join(l.split()).rstrip(",").replace("pub ", "") for l in m.group(3).split("\n") if l.strip()]
            out.append((f"{name}:{line}", m.group(1), m.group(2), fields))
    return out


def same_structs():
    rows, all_ = [], [s for s in structs() if len(s[3]) > 1]
    for i, s in enumerate(all_):
        for t in all_[i + 1:]:
            a, b = set(s[3]), set(t[3])
            if s[1] == t[1] and len(a & b) * 2 > max(len(a), len(b)):
                rows.append(f"{s[0]} {s[2]} ~ {t[0]} {t[2]}")
    return rows


def repeated_clauses(times=3):
    by = {}
    for place, name, _, clauses, _ in FUNCTIONS:
        for c in set(clauses):
            by.setdefault(c, []).append(f"{place} {name}")
    return [f"{len(v)} times: {c}" for c, v in sorted(by.items(), key=lambda x: -len(x[1])) if len(v) >= times]


def repeated_parameters(times=3):
    by = {}
    for place, name, signature, _, _ in FUNCTIONS:
        m = re.search(r"\((.*)\)", signature)
        ps = []
        if m:
            for p in re.split(r",(?![^<]*>)", m.group(1)):
                p = " ".join(p.split())
                if re.match(r"(mut )?\w+: ", p):
                    ps.append(re.sub(r"^mut ", "", p))
        for i, p in enumerate(ps):
            for q in ps[i + 1:]:
                by.setdefault((p, q), set()).add(f"{place} {name}")
    alone = {}
    for (p, q), v in by.items():
        for x in (p, q):
            alone.setdefault(x, set()).update(v)
    # Parameters of which one seldom comes without the other.
    rows = [(len(v), p, q) for (p, q), v in by.items() if len(v) >= times and len(v) * 5 >= 4 * min(len(alone[p]), len(alone[q]))]
    return [f"{n} times: {p}, {q}" for n, p, q in sorted(rows, key=lambda r: (-r[0], r[1:]))]


def slices_with_numbers():
    rows = []
    for place, name, signature, _, _ in FUNCTIONS:
        if re.search(r": &(mut )?\[|: &(mut )?Vec<", signature) and re.search(r": (usize|u64|u32|u16)\b", signature):
            rows.append(f"{place} {name}")
    for place, _, name, fields in structs():
        if any(re.search(r"Vec<|\[", f) for f in fields) and any(re.search(r": (usize|u16|u32)$", f) for f in fields):
            rows.append(f"{place} {name}")
    return rows


def parallel():
    rows = [f"{place} {name}" for place, name, signature, _, _ in FUNCTIONS if "costs: " in signature and "delays: " in signature]
    return rows + [f"{place} {name}" for place, _, name, fields in structs() if any(f.startswith("costs:") for f in fields) and any(f.startswith("delays:") for f in fields)]


def dispatch():
    rows = []
    for name, text in texts.items():
        text = code(text)
        for m in re.finditer(r"match ([^{}\n]+) \{\n((?:[^{}]|\{[^{}]*\})*?)\n[ \t]*\}", text):
            arms = re.findall(r"=> (?:\{\s*)?([^\n]+)", m.group(2))
            calls = [a for a in arms if re.search(r"\b[a-z_][\w.]*\(", a)]
            if len(arms) > 1 and len(calls) == len(arms):
                rows.append(f"{name}:{text.count(chr(10), 0, m.start()) + 1}: match {m.group(1)}")
    return rows


POINTS = [
    ("1a own enums", lambda: [f"{p} {n}" for p, k, n, _ in structs() if k == "enum"]),
    ("1b errors in an Option", lambda: [f"{p} {n}" for p, n, s, _, _ in FUNCTIONS if re.search(r"-> Option<(Refusal|Fault|Difference|Refused)>", s)]),
    ("1c arms that only pass on or replace", lambda: lines_with(r"(Ok\(\w*\) => (Ok|Some|\w+,)|Ok\(\(\)\) => \{\}|Err\(\w+\) => (return )?(Err|Ok|\d)|Err\(_\) => unreach|None => (return )?(None|Ok|Err|false|true|\w+,)|Some\(\w+\) => (return )?(Some|Ok|Err)\()")),
    ("1d a number that stands for none", lambda: lines_with(r"(== u(32|64)::MAX|>= [\w.&]*\.len\(\)|_ => 0\b|=> 0,)")),
    ("1e numbers for kinds", lambda: lines_with(r"(\b(number|outcome|code|medium|kind): u8|fn \w*number\w*\(&self\) -> u8)")),
    ("1f flags", lambda: lines_with(r"^\s*(pub )?\w+: bool,?$|\w+: bool[,)]")),
    ("2a functions of one shape", twins),
    ("2b types with the same fields", same_structs),
    ("3 loops", lambda: lines_with(r"^\s*('\w+: )?(for |while |loop\b)|= loop\b")),
    ("4a fields compared one by one", lambda: lines_with(r"\w+\.(\w+) (==|!=|<) \w+\.\1\b|matches!|=> (true|false),")),
    ("4b one record made of another", lambda: [f"{p} {n}" for p, n, s, _, _ in FUNCTIONS if re.search(r"\(\w+: &?(?!mut)[A-Z]\w*(<[^>]*>)?\) -> [A-Z]", s) or re.search(r"fn (number|place|line|verdict)\(&self\)", s)]),
    ("4c records of zeros", lambda: lines_with(r"(\{ cost: 0, delay: 0 \}|\{ sites: 0, legs: 0 \}|^\s*tail: 0,|^\s*start: 0,|^\s*from: None,)")),
    ("4d text by hand", lambda: lines_with(r"(b'0' \+|format!|-> &'static str|push_str|writeln?!)")),
    ("5a facts in three contracts or more", repeated_clauses),
    ("5b parameters together in three functions or more", repeated_parameters),
    ("6a lists with a number beside them", slices_with_numbers),
    ("6b parallel lists", parallel),
    ("6c searches by hand", lambda: lines_with(r"(while low < high|/ 2;|parent: usize)")),
    ("7 matches that choose what to call, tables of functions", lambda: dispatch() + lines_with(r": (&dyn|fn\()")),
]

for title, find in POINTS:
    rows = find()
    print(f"{title}: {len(rows)}")
    if not count_only:
        for row in rows:
            print("   ", row)
