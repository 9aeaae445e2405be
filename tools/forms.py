#!/usr/bin/env python3
"""Lists the places of src/ that are written in an older form, point by point: python3 tools/forms.py [POINT ..] [--list]

Without --list it prints how many there are of each kind. It goes by text; docs/DESIGN-PASS.md says what each kind is and what was done with it.
"""
import collections
import glob
import re
import sys

WORD = r"[A-Za-z_]\w*"
HEAD = re.compile(r"^\s*(?:pub(?:\([^)]*\))? )?(?:unsafe )?(?:extern \"C\" )?fn (\w+)")


def sources():
    for name in sorted(glob.glob("crates/*/src/**/*.rt", recursive=True)):
        yield name, open(name).read()


def functions(text):
    """(name, first line, text up to the body, lines of the body) of each function."""
    lines = text.split("\n")
    for at, line in enumerate(lines):
        found = HEAD.match(line)
        if not found:
            continue
        indent = re.match(r"\s*", line).group(0)
        end = next((k for k in range(at, len(lines)) if lines[k] == indent + "}"), at)
        start = next((k for k in range(at, end + 1) if lines[k].rstrip().endswith("{") and not re.search(r"(requires|ensures)", lines[k])), at)
        yield found.group(1), at + 1, "\n".join(lines[at:start + 1]), lines[start + 1:end]


def loops(body):
    """(condition, lines) of each `while` and `loop`."""
    for at, line in enumerate(body):
        found = re.match(r"^(\s*)(while|loop)\b(.*)\{$", line)
        if found:
            end = next(k for k in range(at, len(body)) if body[k] == found.group(1) + "}")
            yield found.group(3).strip(), body[at + 1:end]


def enums(text):
    for found in re.finditer(r"enum (\w+)[^{;]*\{\n(.*?)\n\}", text, re.S):
        yield found.group(1), [line.strip().rstrip(",") for line in found.group(2).split("\n") if line.strip() and not line.strip().startswith("//")]


def answers_by_enum(name, text):
    for enum, cases in enums(text):
        bare = [case for case in cases if re.fullmatch(WORD, case)]
        refusing = [case for case in cases if re.search(r"\(Refusal\)$", case)]
        if len(cases) == 2 and len(bare) == 1 and len(refusing) == 0 or refusing or len(cases) == 3 and len(bare) == 2 and any("Bad" in case for case in bare):
            yield f"enum {enum}: {', '.join(cases)}"


def kinds_by_number(name, text):
    for run in re.finditer(r"(?:^(?:pub(?:\([^)]*\))? )?const \w+: \w+ = \d+;\n(?:\s*\n|//[^\n]*\n)*)+", text, re.M):
        found = [(constant, int(n)) for constant, n in re.findall(r"const (\w+): \w+ = (\d+);", run.group(0))]
        kinds = [constant for k, (constant, n) in enumerate(found) if n == k]
        if len(kinds) >= 3:
            for constant in kinds:
                yield f"const {constant}"
    for function, at, head, body in functions(text):
        returned = re.findall(r"return (\d+);", "\n".join(body)) + [line.strip() for line in body[-1:] if re.fullmatch(r"\s*\d+", line)]
        if re.search(r"-> (u8|u32|usize)\b", head) and len(set(returned)) >= 3:
            yield f"fn {function}: {', '.join(sorted(set(returned), key=int))}"


def flags_beside(name, text):
    for found in re.finditer(r"struct (\w+)[^{;]*\{\n(.*?)\n\}", text, re.S):
        flags = re.findall(r"(\w*good|\w*ended|accepted|opened|met|found): bool", found.group(2))
        if flags:
            yield f"struct {found.group(1)}: {', '.join(flags)}"


def handed_on(name, text):
    for found in re.finditer(r"(\w+::)?(Refused|Faulty|Wrong|Err)\((\w+)\) => (return )?(\w+::)?(Refused|Faulty|Wrong|Err)\(\3\)", text):
        yield found.group(0)


def counted_by_hand(name, text):
    for function, at, head, body in functions(text):
        for condition, inner in loops(body):
            steps = [m.group(1) for line in inner for m in [re.match(r"^\s*(\w+) [+-]= 1;$", line)] if m]
            if any(re.search(rf"\b{step}\b", condition) for step in steps):
                yield f"fn {function}: while {condition}"


def converted_by_hand(name, text):
    for function, at, head, body in functions(text):
        if len(body) == 1 and re.fullmatch(r"\s*\w+ as (u8|u16|u32|u64|usize)", body[0]):
            yield f"fn {function}: {body[0].strip()}"


def compared_by_hand(name, text):
    for function, at, head, body in functions(text):
        if len(body) == 1 and re.fullmatch(r"\s*\w+ (==|<) \w+", body[0]):
            yield f"fn {function}: {body[0].strip()}"
        for condition, inner in loops(body):
            if len(inner) <= 4 and re.search(r"if \w+\[[^\]]*\] != \w+\[[^\]]*\] \{", "\n".join(inner)):
                yield f"fn {function}: bytes one by one"
    # a `for` that does the same
    for found in re.finditer(r"for \w+ in [^{]*\{\n\s*if \w+\[[^\]]*\] != \w+\[[^\]]*\] \{\n\s*return false;\n\s*\}\n\s*\}", text):
        yield "for: elements one by one"


def copied_by_hand(name, text):
    for function, at, head, body in functions(text):
        for found in re.finditer(r"(?:while|for) [^{]*\{\n\s*(?:\w+ -= 1;\n\s*)?\w+\[[^\]]*\] = (?:\w+\[[^\]]*\]|\d+);\n(?:\s*\w+ \+= 1;\n)?\s*\}", "\n".join(body)):
            yield f"fn {function}"


def clauses(name, text):
    for function, at, head, body in functions(text):
        for found in re.finditer(r"requires (?:\w+ )?\{ (.*) \}", head):
            yield found.group(1)


def parameters(name, text):
    for function, at, head, body in functions(text):
        found = re.search(r"fn \w+(?:<[^>]*>)?\((.*?)\)(?: ->|\n|$)", head, re.S)
        if found:
            yield function, re.findall(r"(\w+): ([^,()]+(?:\([^)]*\))?)", found.group(1))


def facts(sources):
    seen = collections.Counter()
    for name, text in sources:
        for clause in set(c for c in clauses(name, text)):
            seen[clause] += sum(1 for c in clauses(name, text) if c == clause)
    for clause, n in seen.most_common():
        if n >= 3:
            yield f"{n} times: {clause}"


def together(sources):
    seen = collections.Counter()
    for name, text in sources:
        for function, given in parameters(name, text):
            names = [g for g, _ in given]
            for a, b in zip(names, names[1:]):
                seen[a, b] += 1
    for (a, b), n in seen.most_common():
        if n >= 5:
            yield f"{n} times: {a}, {b}"


def lengths_beside(name, text):
    for function, at, head, body in functions(text):
        for found in re.finditer(r"\{ (\w+) ≤ length (\w+)\.(?:now|old) \}", head):
            if re.search(rf"\b{found.group(1)}: usize", head):
                yield f"fn {function}: {found.group(2)}, {found.group(1)}"


def switches(name, text):
    for function, at, head, body in functions(text):
        joined = "\n".join(body)
        for found in re.finditer(r"match (kind|form|call\.kind|rule|which)\b", joined):
            yield f"fn {function}: match {found.group(1)}"


POINTS = {
    "1": [("own enums for an answer", answers_by_enum), ("numbers for kinds", kinds_by_number), ("flags beside a value", flags_beside), ("refusals handed on by a match", handed_on)],
    "3": [("loops that count by hand", counted_by_hand)],
    "4": [("conversions", converted_by_hand), ("comparisons", compared_by_hand), ("copying", copied_by_hand)],
    "5": [("facts in three contracts or more", facts), ("parameters side by side in five functions or more", together)],
    "6": [("lengths beside a buffer", lengths_beside)],
    "7": [("switches", switches)],
}


def main():
    asked = [word for word in sys.argv[1:] if word in POINTS] or list(POINTS)
    for point in asked:
        for kind, look in POINTS[point]:
            if look in (facts, together):
                places = list(look(list(sources())))
            else:
                places = [f"{name[len('crates/'):]}: {place}" for name, text in sources() for place in look(name, text)]
            print(f"{point} {kind}: {len(places)}")
            if "--list" in sys.argv:
                for place in places:
                    print(f"    {place}")


main()
