#!/usr/bin/env python3
"""Lists what is written in two places if one would do: run at the top, it changes nothing.

- lemmas of one statement, whatever their variables are called, in two crates or in two files of one crate, if the second could import the
  first: a lemma is stated once, in the lowest crate that can hold it;
- functions of one body on the same types, whatever their variables are called, in crates/*/src except tests. Their contracts may differ;
- constants of one value and one name, except for MAX and MOST, and numbers of three digits and more that are written out though a constant
  in reach has that value. A number may be equal by chance: see what it means;
- libraries that crates.txt lists of a crate that names none of theirs, and those that it names without listing them.
"""
import functools
import glob
import os
import re

# Where std says one thing under two paths.
OF_STD = re.compile(r"Rattle\.std\.(?:proofs\.Common|specs\.Prelude)\.")
# A word of a statement.
WORD = r"[^\s(){}\[\],;.]+"
# Shorter statements are those of any helper.
SHORTEST = 12
# A body of one expression counts from this many tokens.
EXPRESSION = 14
# A token of a body: a text, a lifetime, a word, a number, or a mark.
TOKEN = r'b?"(?:[^"\\]|\\.)*"|b?\'(?:[^\'\\]|\\.[^\']*)\'|\'\w+|[A-Za-z_]\w*|\d[\w.]*|\.\.=?|::|=>|->|&&|\|\||[<>=!+*/%&|^-]=|<<|>>|\S'
# The words that are no variable's name.
KEPT = {*"as bool break char const continue crate else false for i32 i64 if in let loop match move mut ref return self".split(),
        *"static str super true u8 u16 u32 u64 u128 usize while".split()}
# A number of three digits or more.
NUMBER = r"(?<![\w.])(?:0x[0-9a-fA-F_]+|\d[\d_]{2,})(?=\b|[iu])"


def listed():
    """Returns the libraries that crates.txt lists of each crate."""
    crates = {}
    with open("crates.txt", encoding="utf-8") as file:
        for line in file:
            name, colon, rest = line.split("#")[0].partition(":")
            if colon:
                crates[name.strip()] = rest.split()
    return crates


def texts(crate, *parts, kinds=(".rt", ".antt")):
    """Yields the path and the text of each file of these parts of a crate."""
    for part in parts:
        for path in sorted(glob.glob(f"crates/{crate}/{part}/**/*", recursive=True)):
            if path.endswith(kinds):
                with open(path, encoding="utf-8") as file:
                    yield path, file.read()


def imports(text):
    """Returns what each imported name stands for."""
    found = {}
    for path, names in re.findall(r"(?m)^\s*(?:pub )?use ([^{\s]+)\.\{(.*)\}\s*$", text):
        for name in names.split(","):
            first, _, other = name.strip().partition(" as ")
            found[(other or first).strip()] = OF_STD.sub("std.", f"{path}.{first.strip()}")
    return found


def meaning(statement, bound, named):
    """Returns the statement with each bound word by its number and each imported one by what it stands for."""
    numbers = {}
    return re.sub(WORD, lambda it: f"#{numbers.setdefault(it[0], len(numbers))}" if it[0] in bound else named.get(it[0], it[0]), statement)


def lemmas(text):
    """Yields each statement at the margin of a file: its name, whether it is public, its words and what they mean."""
    named = imports(text)
    own = set(re.findall(r"(?m)^(?:(?:pub|abbrev|unfoldable|opaque|data|record) )*([^\s:(){},]+)(?: .*)? :(?=\s)", text))
    for public, name, first, more in re.findall(r"(?m)^(pub )?([a-z][^\s:]*) : (.+)((?:\n +.+)*)", text):
        statement = re.sub(r"\s+", " ", first + more)
        words = re.findall(WORD, statement)
        bound = {word for group in re.findall(r"[({]([^(){}:]*?) :", statement) for word in group.split()}
        if len(statement) < SHORTEST or any(word in own and word not in named and word not in bound for word in words):
            continue
        yield name, bool(public), statement, meaning(statement, bound, named)


def functions(text):
    """Yields each function with a body, in a file in the layout of `rt fmt`: the number of its first line (from 0), its name, its parameters
    and result, and the numbers of its body's lines."""
    lines = text.split("\n")
    for first, line in enumerate(lines):
        head = re.match(r"( *)(?:pub(?:\(\w+\))? )?(?:const )?fn (\w+)", line)
        if not head:
            continue
        margin = head[1]
        for begin in range(first, len(lines)):
            starts = re.match(rf"{margin}\S", lines[begin])
            # A body opens at the margin of its function. One that is written in its first line, or that a trait leaves out, is passed over.
            if starts and (lines[begin].endswith(("}", ";")) or begin > first and lines[begin].strip()[0] not in "){w"):
                break
            if starts and lines[begin].endswith("{"):
                end = lines.index(margin + "}", begin)
                clauses = (it for it in range(first, begin) if re.match(r" *(?:requires|ensures|ghost) ", lines[it]))
                types = "\n".join(lines[first:next(clauses, begin + 1)]).rstrip("{ \n")
                yield first, head[2], types.partition(f"fn {head[2]}")[2], range(begin + 1, end)
                break


def form(name, types, body):
    """Returns the types and the body of a function with each variable by its number, or `None` if the body is too short to count."""
    tokens = re.findall(TOKEN, re.sub(r"(?m)//.*$", "", body))
    if tokens.count(";") + (tokens[-1:] not in ([";"], ["}"])) < 2 and len(tokens) < EXPRESSION:
        return None
    numbers, out, tokens = {}, [], re.findall(TOKEN, types) + tokens
    for before, token, after in zip([""] + tokens, tokens, tokens[1:] + [""]):
        if token == name:
            token = "#"
        elif re.fullmatch(r"[a-z_]\w*", token) and token not in KEPT and before not in (".", "::") and after not in ("(", "::", "!"):
            token = numbers.setdefault(token, f"#{len(numbers)}")
        if not (token == "," and after in (")", "]", "}")):
            out.append(token)
    return " ".join(out)


def value(words):
    """Returns the number that a constant is, or its text."""
    plain = re.sub(r"(?<=\d)_(?=\d)|(?<=\d)_?[iu](?:\d+|size)\b", "", words)
    return eval(plain) if re.fullmatch(r"[\d() <*+-]+|0x[0-9a-fA-F]+", plain) else words


def said_in_code(crates, below):
    """Prints functions, constants and numbers that are written twice."""
    bodies, consts, numbers = {}, [], []
    for crate in crates:
        if crate.endswith("_tests"):
            continue
        for path, text in texts(crate, "src", kinds=(".rt",)):
            lines = text.split("\n")
            for at, name, types, body in functions(text):
                means = form(name, types, "\n".join(lines[it] for it in body))
                if means:
                    bodies.setdefault(means, []).append(f"{path}:{at + 1}: {name}")
                for it in body:
                    code = re.sub(r"//.*|\"(?:[^\"\\]|\\.)*\"", "", lines[it])
                    if not re.match(r"\s*(?:ghost|requires|ensures|prove!|#)", code):
                        numbers += ((crate, f"{path}:{it + 1}", value(one)) for one in re.findall(NUMBER, code))
            for at, line in enumerate(lines):
                const = re.match(r"(pub )?(pub\(crate\) )?const (\w+): [^=]+ = (.+);", line)
                if const:
                    consts.append((crate, f"{path}:{at + 1}", const[3], value(const[4]), crate if const[2] else const[1] or path))
    for places in bodies.values():
        if len(places) > 1:
            print(f"{places[0]} has the body of {', '.join(places[1:])}")
    for at, (crate, place, name, number, _) in enumerate(consts):
        for other, there, called, its, _ in consts[:at]:
            if number == its and {*name.split("_")} - {"MAX", "MOST"} == {*called.split("_")} - {"MAX", "MOST"}:
                print(f"{place}: {name} is {called} of {there}")
    for crate, place, number in numbers:
        known = [f"{name} of {there}" for other, there, name, its, seen in consts
                 if number == its and (seen in (crate, place.partition(":")[0]) or seen == "pub " and other in {crate, *below(crate)})]
        if known:
            print(f"{place}: {number} is {', '.join(known)}")


def main():
    crates = listed()

    @functools.lru_cache(maxsize=None)
    def below(crate):
        return frozenset(it for one in crates.get(crate, ()) for it in (one, *below(one)))

    said = {}
    for crate in crates:
        for path, text in texts(crate, "specs", "proofs", kinds=(".antt",)):
            if os.path.basename(path) not in ("Answers.antt", "Invariants.antt", "Lib.antt"):
                for name, public, statement, means in lemmas(text):
                    said.setdefault(means, []).append((crate, path, name, public, statement))
    for places in said.values():
        for crate, path, name, _, statement in places:
            lower = [it for it in places if it[0] in below(crate) or it[0] == crate and it[1] < path]
            if lower:
                first = min(lower, key=lambda it: (len(below(it[0])), it[1]))
                print(f"{path}: {name} is {first[2]} of {first[1]}{'' if first[3] else ' (not public there)'}: {statement[:80]}")
    said_in_code(crates, below)
    names = {it for some in crates.values() for it in some} | {*crates}
    for crate, some in crates.items():
        text = "\n".join(it for _, it in texts(crate, "src", "specs", "proofs"))
        text = re.sub(r"(?m)^\s*(?://|--).*$", "", text)
        cited = ({*re.findall(r"\bRattle\.(\w+)\.", text)} | {*re.findall(r"(?<![\w.:])(\w+)::", text)}) & names - {crate}
        for it in sorted(cited ^ {*some}):
            print(f"crates.txt: {crate} {'names ' + it + ', which is not listed' if it in cited else 'lists ' + it + ', and names nothing of it'}")


main()
