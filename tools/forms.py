"""Lists the places in crates/*/src that an older form of the language may have shaped, by point; tests are left out.

    python3 tools/forms.py            the counts
    python3 tools/forms.py POINT      the places of one point, as file:line and the line

It finds candidates by their text; docs/DESIGN-PASS.md says which of them are places, and what became of each.
"""
import collections
import glob
import re
import sys


def sources():
    """Each file of src/ with its lines, up to its tests."""
    for path in sorted(glob.glob("crates/*/src/**/*.rt", recursive=True)):
        with open(path, encoding="utf-8") as file:
            text = file.read()
        yield path, text.split("#[cfg(test)]")[0]


def code_lines(text):
    """Numbered lines of code: no comments, no clauses and no ghost lines."""
    for number, line in enumerate(text.split("\n"), 1):
        bare = line.strip()
        if bare.startswith(("//", "requires ", "ensures ", "ghost ")):
            continue
        yield number, line


def by_line(*patterns):
    """The lines that a pattern fits."""
    found = []
    for path, text in sources():
        for number, line in code_lines(text):
            if any(re.search(pattern, line.strip()) for pattern in patterns):
                found.append((path, number, line.strip()))
    return found


def functions():
    """Each function: its path, line, name, parameters and body."""
    for path, text in sources():
        for match in re.finditer(r"^( *)(?:pub(?:\([a-z]+\))? )?fn (\w+)", text, re.M):
            indent = match.group(1)
            end = re.search(r"^(?:%s\}| *(?:fn|ensures|requires) .*;)$" % indent, text[match.start():], re.M)
            whole = text[match.start():match.start() + end.end()] if end else ""
            lines = [line for _, line in code_lines(whole)]
            code = "\n".join(lines)
            start = code.find("\n" + indent + "{")
            if start < 0:
                start = code.find("{")
            body = code[start:] if start >= 0 else ""
            number = text.count("\n", 0, match.start()) + 1
            yield path, number, match.group(2), code[:start], body, whole


def shape(body):
    """A body with its names and numbers made alike, in the order in which they come."""
    names = {}
    keep = {"for", "in", "if", "else", "match", "return", "let", "mut", "while", "loop", "Some", "None", "Ok", "Err", "self", "as"}

    def rename(found):
        word = found.group(0)
        if word in keep:
            return word
        if word[0].isdigit():
            return "0"
        return names.setdefault(word, "v%d" % len(names))

    return re.sub(r"\s+", " ", re.sub(r"\w+", rename, body))


def twins():
    """Functions whose bodies have one shape, of eight words or more."""
    groups = collections.defaultdict(list)
    for path, number, name, _, body, _ in functions():
        if len(re.findall(r"\w+", body)) >= 8:
            groups[shape(body)].append((path, number, "fn " + name))
    return [place for group in groups.values() if len(group) > 1 for place in group]


def clauses():
    """What three or more functions of a file require in the same words."""
    found = []
    for path, _ in sources():
        facts = collections.defaultdict(list)
        for other, number, name, _, _, whole in functions():
            if other == path:
                for fact in re.findall(r"requires \w+ \{ (.*) \}", whole):
                    fact = re.sub(r"\b(self|\w+)\.(old|now)\b", r"\1", fact)
                    facts[fact].append((path, number, "fn %s requires %s" % (name, fact)))
        for group in facts.values():
            if len(group) >= 3:
                found.extend(group)
    return found


def together():
    """Pairs of parameters that three or more functions of a crate take."""
    pairs = collections.defaultdict(list)
    for path, number, name, head, _, _ in functions():
        crate = path.split("/")[1]
        taken = re.findall(r"(\w+): (&(?:'\w+ )?(?:mut )?(?:\w+|\[\w+\]))", head)
        for i, one in enumerate(taken):
            for other in taken[i + 1:]:
                if one[0] != "rt":
                    pairs[crate, one[0], other[0]].append((path, number, "fn %s(%s, %s)" % (name, one[0], other[0])))
    return [place for group in pairs.values() if len(group) >= 3 for place in group]


def arrays():
    """Structs with a length beside a buffer, or with more than one buffer."""
    found = []
    for path, text in sources():
        for match in re.finditer(r"struct (\w+)[^{;(]*\{(.*?)\n\}", text, re.S):
            fields = re.findall(r"^\s*(?:pub(?:\([a-z]+\))? )?(\w+): (.*),$", match.group(2), re.M)
            buffers = [name for name, kind in fields if re.match(r"\[|Vec<|Row", kind)]
            if len(buffers) > 1 or (buffers and any(name == "len" for name, _ in fields)):
                number = text.count("\n", 0, match.start()) + 1
                found.append((path, number, "struct %s: %s" % (match.group(1), ", ".join(name for name, _ in fields))))
    return found


POINTS = {
    "1-enums": lambda: by_line(r"^(pub(\([a-z]+\))? )?enum \w+"),
    "1-passed-on": lambda: by_line(
        r"(Ok|Some|Err)\(\(?[\w, ]*\)?\) => (return )?(Ok|Some|Err)\(", r"\bNone => (return )?(None|Ok|Err)\b",
        r"=> Err\(anyhow", r"^let (Ok|Some)\(.*\) = .* else \{$"),
    "1-none-by-number": lambda: by_line(r"[!=]= (NONE|UNKNOWN)\b", r"const \w+: u32 = (4294967295|u32::MAX)", r"unwrap_or\(NONE\)"),
    "1-flags": lambda: by_line(r"let mut \w+ = (false|true);"),
    "1-guarded": lambda: by_line(r"if \w+ (<|>=) self\.[\w.]*len\b", r"^if self\.inner\.len == 0"),
    "1-kinds": lambda: by_line(r"fn (kind_of|number|wants_\w+)\b"),
    "2-twins": twins,
    "3-counted": lambda: by_line(r"^(while|loop)\b", r"^\w+ \+= 1;"),
    "3-ranges": lambda: by_line(r"^for \w+ in .*\.\.", r"\(0\.\.[^)]*\)\s*\."),
    "4-conversions": lambda: by_line(r"fn (kind_of|read_word|read_\w+|plain|parse_\w+)\b.*->", r"fn (print|show)\w*"),
    "4-defaults": lambda: by_line(r"fn new\(\) -> \w+"),
    "4-by-hand": lambda: by_line(r"impl.* (From<\w+>|TryFrom<\w+>|FromStr|fmt::Display|PartialEq|Ord|Clone|Default) for"),
    "5-facts": clauses,
    "5-together": together,
    "6-arrays": arrays,
    "7-switches": lambda: by_line(r"^match (self|\*self|call|entry|said|command|kind|stop) \{"),
}


def main():
    if len(sys.argv) > 1:
        for path, number, line in POINTS[sys.argv[1]]():
            print("%s:%d: %s" % (path, number, line))
        return
    for point, find in POINTS.items():
        print("%-18s %d" % (point, len(find())))


main()
