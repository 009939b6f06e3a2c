#!/usr/bin/env python3
# Counts the places that still have an older form, under eight points, by the layout that `rt fmt` gives. Run it at the top of the repository; it takes no arguments.
# It prints "point N: FILE:LINE: text", the form in brackets, and totals. A count is no verdict: it misses other spellings, and counts a place once a form.
import collections, glob, itertools, re
FORMS = [  # each pattern is tried on every line, with the lines below it that stand further in
    (1, "variant for none", r" +(Absent|Empty|Nothing|Missing|Unset),\n?$"), (1, "flag", r".*\w+: bool\b(?! =)"),  # misses other names; any bool field or parameter
    (1, "number for a kind", r".*(\b(KIND_\w+|kind): u\d+|=> \d+,$|Result<[^;{\n]*, u\d+>|-> \(?u8(, bool\))? \{\n\s+match)"),
    (1, "0 for none", r"(?!.*%).*([!=]= 0\b|// .*\b(or 0\b|0 (past|where|at)\b))"),  # also tests of a true 0; misses a 0 tested elsewhere
    (1, "0 that says nothing", r" *0$"), (1, "refusal by hand", r".*(not_understood\(out\)[;,]?$|Result<Option<|return no_\w+\(out\))"),
    (3, "while or loop", r" +(while .*|loop) \{"), (3, "gathers", r" +for [^$]*(\.push\(| \+= |\n +(\w+) = \w+\([^\n]*\b\2\b)"),  # collect, sum, fold by hand
    (3, "counted, indexes", r" +for (\w+) in .*\.\.[^$]*\[[^\]\n]*\b\1\b"), (3, "counted, else", r" +for (\w+) in .*\.\.(?![^$]*\[[^\]\n]*\b\1\b)"),
    (3, "leaves early", r" +for [^$]*\n +return "), (3, "index or a default", r" *if \w+ < \w+\.len\(\) \{\s+\w+\[\w+\][^;}]*\} else"),  # find, any; get
    (4, "bytes and halves", r".*([*/%] (256|65536|\w+_RANGE)\b|\b(256|65536) \*)"), (4, "digits", r".*b'[0a]'(?! =>)"), (3, "number beside", r".*\.enumerate\(\)"),
    (4, "passes on", r".*\b(Some|Ok|Err|None)(\(\S*\))? => (return )?(Some|Ok|Err|None)\b"),  # map, map_err, ok_or; misses arms with blocks
    (4, "order or bool", r".*!\(\w+ < \w+\)| *if [^\n]*\n[^\n]*\n *\} else \{\n +(false|None)$"), (4, "cast", r".*\bas ([ui]\d+|[ui]size)\b"),
    (4, "word for a variant", r" +(\S+(\(.*\)| \{.*\})?\)? => (writeln!\(out, )?\"|\"[\w-]+\" => )"), (4, "copied to print", r" +let (\w+) = \w+\.\1(\(\))?;"),
    (6, "length beside", r" *(pub(\(crate\))? )?(struct|Path|Branch)\b[^$]*\[u8[^$]*\blen: usize|.*(\.get\(0\.\.n\)|\[\.\.k\])"),
    (6, "many rows", r"(.*fn \w+.*\(|pub struct \w+.*\{)\n([^$]*?: &('\w+ )?(mut )?\[u16\],\s+){3}"),
    (6, "position beside", r".*fn .*out: &mut \[u8\], at: usize"), (6, "one by one", r".*(let \[(\w+, ){4}|(\w+: Slot, ){3}|= work\.split_at_mut)"),
    (7, "switch of calls", r" +match [^$]*?(\n +\w+::\w+(\(\w+\))? => (?!Ok|Err)(Some\()?[\w:.]+\([^\n]*(\n {12}.*|\n +\),)*){2}"),
]
found, same, shared, params, taken = *(collections.defaultdict(list) for _ in range(3)), {}, []
files = {p: open(p, encoding="utf-8").read().split("\n") for end in ("src/*.rt", "proofs/**/*.antt") for p in sorted(glob.glob("crates/*/" + end, recursive=True))}
def inside(lines, at):  # the lines below that stand further in, with an `} else {` between
    deep = len(lines[at]) - len(lines[at].lstrip()) + 1
    return list(itertools.takewhile(lambda l: not l[:deep].strip() or l.strip() == "} else {", lines[at + 1:at + 80]))
for path, at, line in ((p, a, l) for p, lines in files.items() for a, l in enumerate(lines) if l and not l.startswith("ghost use")):
    lines, crate, pub = files[path], path.split("/")[1], r" *(?:pub(?:\(crate\))? )?"
    if path.endswith(".antt"):  # an answer of a tactic names sets or lemmas and no fact of its goal
        said = " ".join(l.strip() for l in itertools.takewhile(str.strip, lines[at + 1:])).split(" = ", 1)[-1]
        of = "of a tactic" if re.fullmatch(r"(absurd )?\(?(search|grind|omega|cc|refl)[\w(), -]*", said) else "returns" if "returns" in line else "of another goal"
        found[8] += [("answer " + of, path, at, line + " = " + said[:60])] * bool(re.match(r"pub \S+ : goal\.", line))
        found[8] += [("file of lemmas", path, at, line)] * (path.count("/") == 3 and at == 0 and "/Lib.antt" not in path)
        continue
    for point, form, pattern in FORMS:
        found[point] += [(form, path, at, line.strip())] * bool(re.match(pattern, "\n".join([line] + inside(lines, at)), re.M))
    if (m := re.match(pub + r"const (\w+): .* = ([\d_]+);", line)) and "tests" not in path:
        same["constant " + m[1]].append((path, at)), same["constant of value " + m[2].replace("_", "")].append((path, at))
    if m := re.match(pub + r"(struct|enum) \w+.* \{", line):  # the same names of fields or variants
        same[m[1] + " " + " ".join(re.findall("^" + pub + r"(\w+)", "\n".join(inside(lines, at)), re.M))].append((path, at))
    if (m := re.match(pub + r"fn (\w+)", line)) and "tests" not in path:
        head = list(itertools.takewhile(lambda l: not re.search(r"(\{|;|\})$", l) or re.search(r"(requires|ensures) .*\}$", l), lines[at:at + 60]))
        text, body = " ".join(l.strip() for l in head + [lines[at + len(head)]]), " ".join(inside(lines, at + len(head)))
        same["function " + m[1]] += [(path, at)] * ("self" not in text and m[1] not in ("new", "from"))
        same["body " + re.sub(r"[a-z]\w*|\d+", "x", body)] += [(path, at)] * (len(body) > 90)  # names, numbers and types left out
        for fact in set(re.findall(r"(?:requires|ensures) (?:\w+ )?\{ (.*?) \}(?= requires| ensures| \{|;)", text)):
            shared[re.sub(r"[\w.]+\.(now|old|new)\b", "_", fact)].append((path, at))  # `_` is some value, whatever its name
        params[path, at] = frozenset(crate + "." + name for name in re.findall(r"\b([a-z]\w*): [^,()]+", re.split(" requires | ensures | -> ", text)[0]))
alike = {one & two for one, two in itertools.combinations(params.values(), 2) if len(one & two) > 1}
users = {group: [place for place, names in params.items() if group <= names] for group in alike}
for group in sorted(alike, key=lambda g: (-len(users[g]) * (len(g) - 1), sorted(g))):  # the group that saves most first
    if len(users[group]) > 2 and not any(len(group & other) > 1 for other in taken):
        shared["parameters " + " ".join(sorted(group))], taken = users[group], taken + [group]
for point, form, groups, least in (2, "twin", same, 2), (5, "fact", shared, 3):
    for what, places in sorted((w, sorted(set(p))) for w, p in groups.items() if len(set(p)) >= least and not re.search(r"^_ ≡ _$|^struct $|value \d$", w)):
        found[point] += [("parameters" if what.startswith("parameters") else form, path, at, what[:99] + " | " + files[path][at].strip()) for path, at in places]
for point, places in sorted(found.items()):
    print("".join(f"point {point}: {path}:{at + 1}: [{form}] {text}\n" for form, path, at, text in sorted(places, key=lambda p: p[1:3])), end="")
    for by, key in ("form", lambda p: p[0]), ("crate", lambda p: p[1].split("/")[1] + " tests" * ("/tests.rt" in p[1])):
        print(f"point {point} by {by}: {len(places)} =", ", ".join(f"{n} {k}" for k, n in sorted(collections.Counter(map(key, places)).items())))
