#!/usr/bin/env python3
"""Spells this repository's own definitions and lemmas as today's Rattle does: words in snake case, facts and types in upper camel case.

usage: tools/respell/respell.py [--check] [FOLDER]

Run once over a repository that /opt/rattle/port/port.py has turned, and never again. respell.tsv, beside this file, has a row for each name: old, a tab, new.
Proof files and definitions turn as a whole but for comments and strings, where only what stands between back quotes turns; in a source file clauses, ghost items
and `ghost use` turn. A name that Rattle makes for a goal stays: the first behind c., w., l., g. and goal. in an answer file, and what such a file declares.
With --check nothing is written: a line tells each place where two names would fall together.
"""
import os
import re
import sys

HERE = os.path.dirname(os.path.realpath(__file__))
TOKEN = re.compile(r'[^\s(){}.;,@"«»\[\]`]+')
ANSWERS = re.compile(r"/proofs/.+/(Answers|Invariants|Proof)\.antt$")
PIECES = re.compile(r'(?P<string>"(?:[^"\\\n]|\\.)*")|(?P<comment>(?<![^\s(){}.;,@"«»])--[^\n]*)|(?P<code>(?:(?!(?<![^\s(){}.;,@"«»])--)[^"])+)', re.S)
SPAN = re.compile(r"`[^`\n]*`")
RUST = re.compile(r'//[^\n]*|"(?:[^"\\]|\\.)*"|\'(?:[^\'\\]|\\.)\'', re.S)
GHOST = re.compile(r"(?:requires|ensures)\s*\*?\s*(?:\w+\s*)?\{|ghost\s+\w+\s*(?::|=)\s*\{|ghost\s+(?:use|let)\b|law\s+\w+\s*:\s*\{")
HEADS = ("c", "w", "l", "g", "goal", "args")
DECLARED = re.compile(r"(?m)^ *(?:\w+ )*([^\s(){}]+)(?: \{[^{}\n]*\})* : goal\.")


def turned(code, table, answers, kept):
    out, at = [], 0
    for m in TOKEN.finditer(code):
        word = m[0]
        new = table.get(word)
        if new is None or word in kept:
            continue
        if answers and re.search(r"(?<![^\s(){};,@«»])(?:%s)\.$" % "|".join(HEADS), code[max(0, m.start() - 8) : m.start()]):
            continue
        out.append(code[at : m.start()])
        out.append(new)
        at = m.end()
    out.append(code[at:])
    text = "".join(out)
    # 'x as x' is 'x'
    return re.sub(r"(?<![^\s{,])([^\s(){}.;,]+) as \1(?=[\s,}])", r"\1", text)


def spans(comment, table):
    return SPAN.sub(lambda m: turned(m[0], table, False, ()), comment)


def antt(text, table, path):
    answers = bool(ANSWERS.search(path.replace(os.sep, "/")))
    kept = set(DECLARED.findall(text)) if answers else ()
    pieces = []
    for m in PIECES.finditer(text):
        if m["string"]:
            pieces.append(m[0])
        elif m["comment"]:
            pieces.append(spans(m[0], table))
        else:
            pieces.append(turned(m[0], table, answers, kept))
    new = "".join(pieces)
    assert len(PIECES.sub("", text)) == 0, path
    return new


def end_of_block(text, at):
    depth = 0
    while at < len(text):
        if text[at] == "{":
            depth += 1
        elif text[at] == "}":
            depth -= 1
            if depth == 0:
                return at + 1
        elif text[at] == ";" and depth == 0:
            return at + 1
        at += 1
    return at


def rt(text, table):
    hidden = RUST.sub(lambda m: re.sub(r"[^\n]", " ", m[0]), text)
    out, at = [], 0
    # A name that is spelled like a function of the file goes by another there: quoteOf, in a file with `fn quote_of`, is `quote_of as the_quote_of`.
    functions = set(re.findall(r"\bfn (\w+)", hidden))
    own = {old: "the_" + new for old, new in table.items() if new in functions}
    for m in GHOST.finditer(hidden):
        if m.start() < at:
            continue
        start = m.end() - 1 if m[0].endswith("{") else m.start()
        end = end_of_block(hidden, start)
        out.append(rust_comments(text[at:start], table))
        piece = text[start:end]
        if m[0].startswith("ghost") and own:
            piece = re.sub(TOKEN, lambda w: f"{table[w[0]]} as {own[w[0]]}" if w[0] in own and not re.match(r"\s+as\s", piece[w.end() :]) else w[0], piece) if "use" in m[0] else piece
        out.append(turned(piece, {**table, **own}, False, ()))
        at = end
    out.append(rust_comments(text[at:], table))
    return "".join(out)


def rust_comments(text, table):
    return re.sub(r"//[^\n]*", lambda m: spans(m[0], table), text)


def clashes(old, new, table, path):
    """The names that fall together in one file: two that become one, or one that the file had already."""
    def words(text):
        code = re.sub(r'(?<![^\s(){}.;,@"«»])--[^\n]*|//[^\n]*|"(?:[^"\\\n]|\\.)*"', " ", text)
        return set(TOKEN.findall(code))
    was = words(old)
    for word in sorted(was & set(table)):
        if table[word] in was:
            yield f"{path}: {word} becomes {table[word]}, which the file has"
    back = {}
    for word in sorted(was & set(table)):
        back.setdefault(table[word], []).append(word)
    for one, many in back.items():
        if len(many) > 1:
            yield f"{path}: {' and '.join(many)} become {one}"


def main():
    args = sys.argv[1:]
    check = "--check" in args
    args = [it for it in args if it != "--check"]
    top = args[0] if args else "."
    with open(os.path.join(HERE, "respell.tsv"), encoding="utf-8") as f:
        table = dict(line.rstrip("\n").split("\t") for line in f if line.strip())
    count = 0
    for folder, dirs, files in os.walk(os.path.join(top, "crates")):
        dirs[:] = sorted(d for d in dirs if d not in ("out", ".git"))
        for name in sorted(files):
            path = os.path.join(folder, name)
            if not name.endswith((".antt", ".rt")):
                continue
            with open(path, encoding="utf-8") as f:
                text = f.read()
            new = antt(text, table, path) if name.endswith(".antt") else rt(text, table)
            if check:
                for line in clashes(text, new, table, path):
                    print(line)
            elif new != text:
                count += 1
                with open(path, "w", encoding="utf-8") as f:
                    f.write(new)
    if not check:
        print(f"respell: {count} files")


if __name__ == "__main__":
    main()
