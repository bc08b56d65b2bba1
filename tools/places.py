"""Lists places in crates/*/src that an older form of the language may have left: python3 tools/places.py [--list]"""
import collections, glob, re, sys

FILES = {f: open(f, encoding="utf-8").read() for f in sorted(glob.glob("crates/*/src/**/*.rt", recursive=True))}
WORDS = set("fn pub let mut if else match for in while loop return self Self true false Some None Ok Err as impl struct enum const".split())


def lines(pattern):
    found = []
    for f, text in FILES.items():
        for m in re.finditer(pattern, text, re.M):
            found.append(f"{f[7:]}:{text[:m.start()].count(chr(10)) + 1}: {m.group(0).strip().splitlines()[0]}")
    return found


def functions():
    for f, text in FILES.items():
        for m in re.finditer(r"^( *)(?:pub(?:\(crate\))? )?(?:const )?fn (\w+)", text, re.M):
            end = re.compile(r"^" + m.group(1) + r"\}", re.M).search(text, m.end())
            if end:
                yield f, text[: m.start()].count("\n") + 1, m.group(2), text[m.start(): end.end()]


def shape(code):
    head, _, body = code.partition("\n" + re.match(r" *", code).group(0) + "{")
    body = body or code
    tokens = re.findall(r"\w+|[^\w\s]", re.sub(r"//.*", "", body))
    return tuple(t if t in WORDS or not re.match(r"\w", t) else "x" for t in tokens)


def twins():
    groups = collections.defaultdict(list)
    for f, n, name, code in functions():
        s = shape(code)
        if len(s) >= 12:
            groups[s].append(f"{f[7:]}:{n}: {name}")
    return [", ".join(g) for g in groups.values() if len(g) > 1]


def together():
    groups = collections.defaultdict(set)
    for f, n, name, code in functions():
        head = code.split("->")[0].split("\n{")[0]
        params = sorted(set(re.findall(r"(\w+): (&?(?:mut )?[\w:<>\[\]']+)", re.sub(r"<[A-Z]\w*: [^>]*>", "", head))))
        for i, p in enumerate(params):
            for q in params[i + 1:]:
                if p[0] != "rt" and q[0] != "rt":
                    groups[(f.split("/")[1], p, q)].add(name)
    return [f"{c}: {p[0]}: {p[1]}, {q[0]}: {q[1]}: {', '.join(sorted(g))}" for (c, p, q), g in sorted(groups.items()) if len(g) > 2]


def clauses():
    groups = collections.defaultdict(list)
    for f, n, name, code in functions():
        for m in re.finditer(r"ensures \w* ?\{ (.*) \}$", code, re.M):
            groups[m.group(1)].append(name)
    return [f"{len(g)} times: {c}" for c, g in groups.items() if len(g) > 2]


POINTS = [
    ("1a Option or Result handed on by a match", lines(r"^ +(None|Err\(_\)) => (None|false|true|second),|^ +(Some|Ok)\((\w+)\) => (Some|Ok)\(\4\),|^ +Err\((\w+)\) => (return )?Err\(|^ +Ok\(held\) => held")
     + lines(r"let (Some|Ok)\([^\n]*else \{\n *return (None|Err)")),
    ("1b an error as an Option, success as a bool or a length, a flag beside a value", lines(r"-> Option<(Flaw|Fault|Stop)>|^ +pub fn \w+\(&mut self[^\n]*-> bool|^ +sound: bool|fn (put_in|remove_in)")),
    ("2 functions of one shape", twins()),
    ("3 loops that count", lines(r"^ +for (i|passed|_) in |^ +while ")),
    ("4a order, equality and cases by hand", lines(r"fn (before|outranks|is_kind|is_left_out|is_absent|is_digit|may_be_empty|is_zero)\(|\w+ <= (\w+) && \2 <= \w+|\b\w+ < 1 \|\| \w+ > ")),
    ("4b conversions by hand", lines(r"fn numbered\(|fn number\(self\) -> u8|\w+(\(\))? as (u64|usize)\b|\) as u32;|as char")),
    ("4c one value printed by several programs", lines(r'"(E,\{\},\{\},\{\}|line \{\} declined|station \{[:05]*\} year)')),
    ("5a clauses that stand three times or more", clauses()),
    ("5b parameters that travel together in three functions or more", together()),
    ("6 a length beside a buffer, two arrays side by side", lines(r"^ +(pub\(crate\) )?(len|used): usize|rows: &\[Row\], cells: &\[|rules: &\[FieldRule\], line")),
    ("7 a switch on a number of a step", lines(r"^ +match place \{")),
]

for title, found in POINTS:
    print(f"{len(found):4} {title}")
    if "--list" in sys.argv:
        for place in found:
            print("       " + place)
