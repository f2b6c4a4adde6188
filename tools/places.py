#!/usr/bin/env python3
"""Lists the places in crates/*/src where an older form may stand, and counts them: `python3 tools/places.py [POINT] [ROOT]`.

The points are those of docs/DESIGN-PASS.md. A place that is printed is a candidate: the page says what each of them is.
"""
import collections
import glob
import os
import re
import sys

KEYWORDS = set(
    "as break const continue crate else enum extern false fn for if impl in let loop match mod move mut pub ref return "
    "self Self static struct super trait true type unsafe use where while ghost requires ensures".split()
)
PRIMITIVES = set("u8 u16 u32 u64 usize i8 i16 i32 i64 isize bool str".split())


def sources(root):
    for path in sorted(glob.glob(os.path.join(root, "crates/*/src/**/*.rt"), recursive=True)):
        with open(path, encoding="utf-8") as f:
            yield os.path.relpath(path, root), f.read().split("\n")


def code(line):
    """The line without its comment."""
    return re.sub(r"//.*$", "", line)


def functions(lines):
    """Each function: its name, its first line, its header (signature and contract) and its body."""
    found = []
    for i, line in enumerate(lines):
        m = re.match(r'^(\s*)(?:pub(?:\(crate\))? )?(?:extern "C" )?fn (\w+)', line)
        if not m:
            continue
        indent, name = m.groups()
        j = i
        while j < len(lines) and not re.match(rf"^{indent}\{{\}}?$|^.*[^ ] \{{\}}?$|^.*;$", lines[j]):
            j += 1
        if j < len(lines) and lines[j].endswith(("{}", ";")):
            found.append((name, i + 1, lines[i : j + 1], []))
            continue
        k = j
        while k < len(lines) and lines[k] != indent + "}":
            k += 1
        found.append((name, i + 1, lines[i : j + 1], lines[j + 1 : k]))
    return found


def shape(lines):
    """The tokens with each name replaced by the place of its first use, and each number by one sign."""
    names = {}
    out = []
    for line in lines:
        for token in re.findall(r"[A-Za-z_]\w*|0x[0-9a-fA-F]+|\d[\d_]*|\S", code(line)):
            if token in KEYWORDS:
                out.append(token)
            elif re.match(r"[A-Za-z_]", token):
                out.append("n%d" % names.setdefault(token, len(names)))
            elif token[0].isdigit():
                out.append("0")
            else:
                out.append(token)
    return " ".join(out)


def matching(root, patterns, but=None):
    for path, lines in sources(root):
        for i, line in enumerate(lines):
            text = code(line)
            if but and re.search(but, text):
                continue
            if any(re.search(p, text) for p in patterns):
                yield f"{path}:{i + 1}: {text.strip()}"


def point1(root):
    """Enums with a variant for nothing; errors and values handed on by hand; flags that tell whether; numbers for kinds."""
    yield from matching(root, [
        r"^\s*(Nothing|Empty|None|Nil|Absent),$",
        r"\b(Err|None)(\(\w+\))? => (return )?(Err|None)\b",
        r"\b(Ok|Some)\((\w+)\) => (Ok|Some)\(",
        r"^\s*Err\(\w+\) => (\{|\{\})$",
        r"^\s*(pub )?(held|taped|found|known|is_\w+|has_\w+): bool,$",
        r"fn correct_raw.*-> bool",
        r"fn (number|numbers|mark)\(self\) -> u",
        r"^(pub )?const (WRONG_|FILL_BIT|TOO_FEW|NO_SUCH|EMPTY_|PLACE_IN|FIRST\b|PUBLIC_LABEL|SECRET_LABEL|SEALING_LABEL|CHECKSUM_LABEL).*: u8",
    ])


def point2(root):
    """Groups of functions or impls of one shape (a short body counts with its contract), and structs that share four fields or more."""
    groups = collections.defaultdict(set)
    structs = {}
    for path, lines in sources(root):
        inside = set()
        for i, line in enumerate(lines):
            if line.startswith("impl") and line.endswith("{") and " for " in line:
                end = next(k for k in range(i, len(lines)) if lines[k] == "}")
                groups[shape(lines[i:end])].add(f"{path}:{i + 1} {line[:-2]}")
                inside.update(range(i, end))
        for name, line, header, body in functions(lines):
            if line - 1 not in inside and body:
                text = body if len(body) >= 3 else header + body
                groups[shape(text)].add(f"{path}:{line} {name}")
        for i, line in enumerate(lines):
            m = re.match(r"^(?:pub(?:\(crate\))? )?struct (\w+)", line)
            if m and line.endswith("{"):
                end = next(k for k in range(i, len(lines)) if lines[k] == "}")
                fields = re.findall(r"^    (?:pub(?:\(crate\))? )?(\w+): ", "\n".join(lines[i:end]), re.M)
                structs[f"{path}:{i + 1} {m.group(1)}"] = set(fields)
    for same in groups.values():
        if len(same) > 1:
            yield ", ".join(sorted(same))
    for place, fields in structs.items():
        like = [other for other, others in structs.items() if other != place and len(fields & others) >= 4]
        if like and all(place < other for other in like):
            yield ", ".join([place] + like)


def point3(root):
    """Loops that count: a range whose variable is an index, or a loop with a condition or none."""
    for path, lines in sources(root):
        for i, line in enumerate(lines):
            text = code(line)
            m = re.match(r"^(\s*)(?:'\w+: )?for (\w+) in [^{]*\.\.", text)
            if m:
                indent, name = m.groups()
                j = i + 1
                while j < len(lines) and lines[j] != indent + "}":
                    j += 1
                if any(re.search(rf"\[[^\]]*\b{name}\b[^\]]*\]", code(x)) for x in lines[i + 1 : j]):
                    yield f"{path}:{i + 1}: {text.strip()}"
            elif re.match(r"^\s*(while |loop \{)", text):
                yield f"{path}:{i + 1}: {text.strip()}"


def point4(root):
    """Impls of equality, order, copying, conversion and printing, and functions that convert."""
    yield from matching(root, [
        r"^impl\b.*\b(PartialEq|Eq|PartialOrd|Ord|Clone|Copy|Debug|Hash)\b.* for ",
        r"\bfn (same_\w+|same|equal\w*|eq|cmp|to_\w+|from_\w+|\w+_from|\w+_of|into_\w+|join|high|low)\b",
    ], but=r"_of\(set|cost_of")


def clauses(header):
    text = " ".join(x.strip() for x in header)
    return re.findall(r"requires (?:\w+ )?\{ (.*?) \}(?= requires| ensures| \{|$)", text)


def point5(root):
    """Preconditions that stand in three functions or more, and runs of parameters that four functions or more share."""
    facts = collections.defaultdict(set)
    together = collections.defaultdict(set)
    for path, lines in sources(root):
        for name, line, header, _ in functions(lines):
            place = f"{path}: {name}"
            for fact in clauses(header):
                facts[re.sub(r"\.(old|now)\b", "", fact)].add(place)
            text = " ".join(x.strip() for x in header)
            m = re.search(r"\((.*?)\)(?: ->| requires| ensures| \{|$)", text)
            if m:
                names = [p.split(":")[0].strip().replace("mut ", "") for p in m.group(1).split(", ")]
                for a, b in zip(names, names[1:]):
                    if a and b and "self" not in a:
                        together[(a, b)].add(place)
    for fact, where in sorted(facts.items(), key=lambda x: -len(x[1])):
        if len(where) >= 3:
            yield f"{len(where)} functions require: {fact}"
    for pair, where in sorted(together.items(), key=lambda x: -len(x[1])):
        if len(where) >= 4:
            yield f"{len(where)} functions take together: {', '.join(pair)}"


def point6(root):
    """Structs with an array and a length or place beside it, and fixed buffers of which a part is used."""
    for path, lines in sources(root):
        for i, line in enumerate(lines):
            m = re.match(r"^(?:pub(?:\(crate\))? )?struct (\w+)", line)
            if m:
                body = []
                for after in lines[i + 1 :]:
                    if after == "}":
                        break
                    body.append(code(after))
                text = "\n".join(body)
                if re.search(r": \[[^\]]*; ", text) and re.search(r"\b(count|len|from|upto|at|used|position|held): (usize|u16|u32)", text):
                    yield f"{path}:{i + 1}: struct {m.group(1)}"
            if re.search(r"let mut \w+ = \[[^\]]*; (MOST|LONGEST_\w+|AREA_WORDS|MARKS)\]", code(line)):
                yield f"{path}:{i + 1}: {line.strip()}"


def point7(root):
    """Switches on a word or a kind whose arms call functions, and runs of functions that do one after another."""
    for path, lines in sources(root):
        for i, line in enumerate(lines):
            m = re.match(r"^(\s*)(?:let \w+ = )?match ", code(line))
            if not m:
                continue
            arms = 0
            for after in lines[i + 1 :]:
                if after.startswith(m.group(1) + "}"):
                    break
                if re.search(r"=> \w+(::\w+)*\((&mut |rt|&)", code(after)):
                    arms += 1
            if arms >= 3:
                yield f"{path}:{i + 1}: {line.strip()} ({arms} steps)"


def main():
    points = {"1": point1, "2": point2, "3": point3, "4": point4, "5": point5, "6": point6, "7": point7}
    words = sys.argv[1:]
    wanted = [words.pop(0)] if words and words[0] in points else sorted(points)
    root = words[0] if words else "."
    for point in wanted:
        places = list(points[point](root))
        print(f"point {point}: {len(places)}")
        for place in places:
            print(f"  {place}")


main()
