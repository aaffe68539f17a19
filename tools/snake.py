#!/usr/bin/env python3
"""Brings this repository's own definitions, lemmas, constructors, fields and aliases to snake case, after port.py.

usage: tools/snake.py [ROOT]

It goes by text over crates/*/specs and proofs (.antt), the clauses of src (.rt) and the must-fail edits, and turns whole words alone:
  a lower camel case word   isCharacter -> is_character
  a dashed name declared in this repository   read-back -> read_back
Names of src/ (functions, types, constants), of the kit and of what Rattle makes stay. ON_THEIR_OWN has the names that would fall together with another.
Run it once, on what port.py has made: a second run would turn names again.
"""
import collections
import os
import re
import sys

WORD = re.compile(r"[^\s(){}.;,@\"«»]+")
SPAN = re.compile(r"`[^`\n]+`")
DECLARED = re.compile(r"^ *((?:pub |abbrev |unfoldable |opaque )*)(data |record |ruleset )?([^\s:(){},;]+)((?:\s*\([^()]*(?:\([^()]*\)[^()]*)*\)|\s*\{[^{}]*\})*)\s*:\s*(.*)")
MEMBER = re.compile(r"^\s+(?:pub )?([^\s:(){},;]+)\s*:\s")
ALIAS = re.compile(r"\bas\s+([^\s;,{}]+)")
CAMEL = re.compile(r"^[a-z][a-z0-9]*(?:[A-Z]|[0-9]+[A-Z])")
DASHED = re.compile(r"(?<![\w.'\"-])[a-z]\w*(?:-[a-z0-9]\w*)+(?![\w'-])")
# names that would fall together with another of their files: a constructor, a label or a constant gets a word more, a lemma with its function's name `_lem`
ON_THEIR_OWN = {
    "addIdentity": "add_identity_text",
    "addRecipient": "add_recipient_text",
    "recipientStanza": "recipient_stanza_text",
    "wrapFileKey": "wrap_file_key_text",
    "secretKey": "secret_key_text",
    "done-word": "done_command",
    "command-two": "given_command_two",
    "of-file": "of_one_file",
    "stanzas-for": "stanzas_for_file",
    "first-line": "first_line_same",
    "is-done": "is_done_command",
    "machine-named": "machine_is_named",
    "phase-one": "quiet_phase",
    "words-one": "one_word_laws",
    "words-two": "two_words_laws",
    "two-Shaped": "two_shaped",
    "said_in": "blocks_said",
    "foundIn": "found_in",
}
LEMMAS = """any-invalid are-bytes at-once-sent at-once-text bare-text by-due command-in command-words decided-one decided-two decoded-size encoded-size error-at
error-of error-word fault-one first-of has-tail header-at hex-digit human-in human-part is-held is-invalid is-skipped is-untaken last-value line-sent
name-or opened-session read-first read-index refusal-of reply-alone row-command sent-number slots-for spelled-length stanza-ahead stanza-call
stanza-calls symbols-size text-number values-in"""
ON_THEIR_OWN.update({n: n.replace("-", "_") + "_lem" for n in LEMMAS.split()})
# lemmas that port.py has turned already; in proofs/ alone, and not behind a dot of a module's path
TURNED = {n: n + "_lem" for n in ("cut_on", "as_read", "received_more", "line_read", "name_in")}
# words of the paper that comments name in backticks
WORDS = {"add-recipient", "add-identity", "wrap-file-key", "recipient-stanza", "phase-one", "file-key", "identity-file", "grease"}


def snake(word):
    """A lower camel case word in snake case; a dashed name part by part."""
    return re.sub(r"(?<=[a-z0-9])([A-Z])", lambda m: "_" + m.group(1).lower(), word)


def is_camel(part):
    return bool(re.match(r"^[a-z]", part)) and bool(re.search(r"[a-z0-9][A-Z]", part))


def files(root, ends):
    for folder, dirs, names in os.walk(os.path.join(root, "crates")):
        dirs[:] = sorted(d for d in dirs if d not in ("out", ".git"))
        for name in sorted(names):
            if name.endswith(ends):
                yield os.path.join(folder, name)


def declared(text):
    """(name, is a function of specs or a type, type) of a file's own declarations, and the names of constructors and fields."""
    out, members, inside = [], [], False
    for line in text.splitlines():
        m = DECLARED.match(line)
        if m and not line.lstrip().startswith(("use ", "--", "module ", "let ", "in ", "(", "λ")):
            out.append((m.group(3), m.group(5)))
            inside = bool(m.group(2))
        elif inside and MEMBER.match(line):
            members.append(MEMBER.match(line).group(1))
        elif line and not line.startswith(" "):
            inside = False
    return out, members


def table(root):
    """old name -> new name"""
    texts = {p: open(p, encoding="utf-8").read() for p in files(root, ".antt")}
    dashed, camel = collections.defaultdict(set), set()
    for p, t in texts.items():
        own, members = declared(t)
        code = re.sub(r"--[^\n]*", "", t)
        camel |= {w for w in WORD.findall(code) if any(is_camel(x) for x in w.split("-"))}
        for n, kind in own:
            if "-" in n and not kind.startswith(("tie.", "goal.")) and not (p.endswith("Proof.antt") and n.endswith("-spec")):
                new = snake(n).replace("-", "_")
                dashed[n].add(new)
        for n in members:
            if "-" in n:
                dashed[n].add(snake(n).replace("-", "_"))
        for n in ALIAS.findall(t):
            if "-" in n:
                dashed[n].add(snake(n).replace("-", "_"))
    names = {}
    for n, news in dashed.items():
        names[n] = news.pop()
    for n in camel:
        if n not in names:
            names[n] = "-".join(snake(x) if is_camel(x) else x for x in n.split("-"))
    names.update(ON_THEIR_OWN)
    return {a: b for a, b in names.items() if a != b}


def of_the_kit(text):
    """The names that a file's use lines bring in from the toolchain's libraries."""
    found = set()
    for m in re.finditer(r"^use (?:mathlib|lib|native|borrow|Prim|denote|types|Rattle\.std|Rattle\.core)\S*\.\{([^}]*)\}", text, re.M):
        found |= {w.strip().split(" as ")[0] for w in m.group(1).split(",")}
    return found


def turned(text, names, dashes):
    def one(m):
        w = m.group(0)
        if w in TURNED and text[: m.start()].endswith(".") and text.lstrip().startswith("use Rattle.") and "{" not in text[: m.start()]:
            return w
        if w in names and (dashes or "-" not in w):
            return names[w]
        return w

    return WORD.sub(one, text)


def comment(text, names):
    text = SPAN.sub(lambda m: m.group(0) if m.group(0)[1:-1] in WORDS else "`" + turned(m.group(0)[1:-1], names, True) + "`", text)
    return re.sub(r"[A-Za-z0-9]+", lambda m: names.get(m.group(0), m.group(0)), text)


def antt(text, names):
    lines = []
    kit = of_the_kit(text)
    names = {a: b for a, b in (names | TURNED).items() if a not in kit}
    for line in text.split("\n"):
        at = re.search(r"(?:^|\s)--(?:\s|$)", line)
        cut = at.start() if at else len(line)
        lines.append(turned(line[:cut], names, True) + comment(line[cut:], names))
    return "\n".join(lines)


def rt(text, names):
    lines, ghost = [], False
    for line in text.split("\n"):
        if re.match(r"\s*//", line):
            lines.append(comment(line, names))
        elif re.match(r"\s*ghost use ", line) or ghost:
            lines.append(turned(line, names, True))
            ghost = not line.rstrip().endswith(";")
        elif '"' in line:
            lines.append(turned(line, names, False))
        else:
            lines.append(DASHED.sub(lambda m: names.get(m.group(0), m.group(0)), turned(line, names, False)))
    return "\n".join(lines)


def main(argv):
    root = argv[0] if argv else "."
    names = table(root)
    if os.environ.get("SNAKE_TABLE"):
        for a, b in sorted(names.items()):
            print(f"{a}\t{b}")
        return 0
    count = 0
    for p in files(root, (".antt", ".rt", ".edit")):
        with open(p, encoding="utf-8") as f:
            old = f.read()
        if p.endswith(".rt"):
            new = rt(old, names)
        elif p.endswith(".edit"):
            new = "\n".join(turned(l, names, True) if re.match(r"(?:old|new): ", l) else l for l in old.split("\n"))
        else:
            new = antt(old, names)
        if new != old:
            with open(p, "w", encoding="utf-8") as f:
                f.write(new)
            count += 1
    print(f"snake: {len(names)} names, {count} files")
    return 0


if __name__ == "__main__":
    raise SystemExit(main(sys.argv[1:]))
