#!/usr/bin/env python3
"""Brings the names of this repository's definitions, lemmas, fields and local proofs to the spelling of today's Rattle.

Run once, at the top of the checkout, after the toolchain's port.py:

    python3 tools/respell.py            writes the files
    python3 tools/respell.py --list     prints old and new names only

A name that is declared in crates/*/specs or crates/*/proofs and whose words are joined by dashes is spelled with
underscores: `first-day` becomes `first_day`. A lemma keeps a dash where it joins a function's name with one of the
library's, as in `length-bytes_of`. Names of the library keep their spelling, and so do the names of rules
(docs/RULES.md), files, refusals and exported functions. In comments and documents only what stands between backticks is respelled. Names of goals in a
function's own proof file (`returns-2`, `loop-again`) are not this repository's, and stay.
"""
import collections
import glob
import re
import sys

CODE = sorted(glob.glob('crates/*/specs/**/*.antt', recursive=True) + glob.glob('crates/*/proofs/**/*.antt', recursive=True))
SOURCE = sorted(glob.glob('crates/*/src/**/*.rt', recursive=True))
EDITS = sorted(glob.glob('crates/*/edits/*.edit') + glob.glob('crates/*/must-fail/*.edit'))
PAGES = sorted(glob.glob('docs/*.md') + glob.glob('docs/changes/*.md') + ['README.md'])
WORD = r"[^\s(){}\[\];,.`|\\]+"
TOKEN = re.compile(WORD)
SIGNATURE = re.compile(r"^(\s*)((?:(?:abbrev|unfoldable|pub|data|record|module)\s+)*)(" + WORD + r")((?:\s*[({][^\n]*?[)}])*)\s*:(?:\s|$)")
# functions of the library whose names lemmas here are joined to
JOINED = {'length', 'take', 'drop', 'append', 'map'}
# lemmas that join two names of the library's, and are spelled as it spells its own
KEPT = {'not-true', 'not-false', 'and-true', 'and-false', 'drop-take'}
# what a function's proof file names after the function's goals
GOALS = re.compile(r"(returns|loop|invariant|decreases|Need|μ|Inv|overflow)(-|$)|.*-requires(-|$)|.*-result(-|$)")


def comment(line):
    """Where the line's comment begins, or its length."""
    at = re.search(r"(^|\s)(--|//)(\s|$)", line)
    return at.start() if at else len(line)


def is_goals_file(path):
    return path.endswith('/Proof.antt')


def declared():
    """Every name that is declared, with whether it is a definition of the top level."""
    found, functions = {}, set(JOINED)
    for path in CODE:
        for line in open(path, encoding='utf-8'):
            m = SIGNATURE.match(line[:comment(line)])
            if not m:
                continue
            indent, marks, name = m.group(1), m.group(2), m.group(3)
            if is_goals_file(path) and GOALS.match(name):
                continue
            top = indent == ''
            lemma = top and '/proofs/' in path and 'abbrev' not in marks and 'unfoldable' not in marks
            found.setdefault(name, set()).add(lemma)
            if top and not lemma:
                functions.add(name.replace('-', '_'))
    return found, functions


def respelled(name, is_lemma, functions):
    if name.startswith('+'):
        return '+' + respelled(name[1:], is_lemma, functions)
    parts = name.split('-')
    if is_lemma:
        for cut in range(1, len(parts)):
            left, right = '_'.join(parts[:cut]), '_'.join(parts[cut:])
            if left in functions and right in functions and (left in JOINED or right in JOINED):
                return left + '-' + right
    return '_'.join(parts)


def names():
    found, functions = declared()
    rules = set(re.findall(r"^- \*\*([a-z0-9-]+)\*\*", open('docs/RULES.md', encoding='utf-8').read(), re.M))
    new = {}
    for name, kinds in found.items():
        if '-' not in name or name in KEPT:
            continue
        if not re.fullmatch(r"\+?[A-Za-z][A-Za-z0-9_₀-₉'′]*(-[A-Za-z0-9_₀-₉'′]+)+", name):
            continue
        new[name] = respelled(name, kinds == {True}, functions)
    by_new = collections.defaultdict(set)
    for old, word in new.items():
        by_new[word].add(old)
    for name in found:
        if name not in new and name in by_new:
            by_new[name].add(name)
    together = {word: olds for word, olds in by_new.items() if len(olds) > 1}
    spelled = {new.get(name, name) for name in found}
    return new, together, rules, spelled


def with_turned(text, new, spelled):
    """The same, with the names in the text that port.py has respelled where they are declared."""
    turned = {}
    for word in set(TOKEN.findall(text)):
        if '-' in word and word not in new and '_'.join(word.split('-')) in spelled:
            turned[word] = '_'.join(word.split('-'))
    return {**turned, **new}


def replace(text, new):
    return TOKEN.sub(lambda m: new.get(m.group(0), m.group(0)), text)


def replace_ticked(text, new):
    return re.sub(r"`[^`\n]*`", lambda m: replace(m.group(0), new), text)


def respell_code(path, new, spelled):
    out = []
    for line in open(path, encoding='utf-8'):
        at = comment(line)
        out.append(replace(line[:at], new) + replace_ticked(line[at:], with_turned(line[at:], new, spelled)))
    return ''.join(out)


def respell_page(path, new, rules, spelled):
    text = open(path, encoding='utf-8').read()
    known = {old: word for old, word in with_turned(text, new, spelled).items() if old not in rules}
    return replace_ticked(text, known)


def respell_edit(path, new, spelled):
    text = open(path, encoding='utf-8').read()
    known = with_turned(text, new, spelled)
    return ''.join(
        line[:5] + replace(line[5:], known) if line.startswith(('old: ', 'new: ')) else line
        for line in text.splitlines(keepends=True))


def main():
    new, together, rules, spelled = names()
    if together:
        sys.exit('names that would fall together: ' + str(together))
    if '--list' in sys.argv:
        for old, word in sorted(new.items()):
            print(old, word)
        return
    for path in CODE + SOURCE:
        write(path, respell_code(path, new, spelled))
    for path in EDITS:
        write(path, respell_edit(path, new, spelled))
    for path in PAGES:
        write(path, respell_page(path, new, rules, spelled))


def write(path, text):
    if text != open(path, encoding='utf-8').read():
        with open(path, 'w', encoding='utf-8') as file:
            file.write(text)


if __name__ == '__main__':
    main()
