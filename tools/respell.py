#!/usr/bin/env python3
"""Use: python3 tools/respell.py, once, at the top of the repository, right after /opt/rattle/port/port.py, with everything committed.

port.py turns the names of the libraries, and of this repository's own only those that a library spelled alike. This script turns the rest:
each definition and lemma that a text of specs/ or proofs/ declares is spelled in snake case, as `in_pages` for `inPages` and `has_append`
for `has-append`, and a function into types in camel case. Where a definition and a lemma would fall together, as `inPages` and `in-pages`,
the lemma ends in `_lem`. It turns clauses, specs, proofs, the texts of must-fail edits and of tests/edits, the names between backquotes in
README.md and docs/, and the equations that host/agree writes. The crate `log`, whose name a library of the kit has, becomes `inode_log`.
It changes no function, field, type, test or string of the sources, and no exported name."""
import collections
import glob
import os
import re
import subprocess
import sys

ROOT = os.path.dirname(os.path.dirname(os.path.abspath(__file__)))
WORD = r'[^\s(){}.;,@"«»`]+'
DECLARED = re.compile(r'(?m)^ *((?:(?:pub|abbrev|unfoldable) )*)(' + WORD + r')(?: \{[^{}\n]*\})* :(?=\s)(.*)$')
TOKEN = re.compile(WORD)
ODD = re.compile(r"[a-z0-9]+[A-Z]|[^-]-[^-]")
# Parameters of definitions that are spelled as definitions were.
PARAMETERS = {'oldFolder': 'old_folder', 'newFolder': 'new_folder'}
# Fields of records in specs/ whose names in snake case would be those of the definitions that they speak of.
FIELDS = {'is-accepted': 'accepted_after', 'is-done': 'ends_done'}
OLD_CRATE, NEW_CRATE = 'log', 'inode_log'

# Names of the language and its libraries that edits and host/agree cite; port.py turns them elsewhere.
LIBRARY = {'getD': 'get_or', '_++_': '◌++◌', '_∷_': '◌∷◌', '_+_': '◌+◌', '_×_': '◌×◌', '_*_': '◌*◌'}


def texts(*patterns):
    for pattern in patterns:
        for path in sorted(glob.glob(os.path.join(ROOT, pattern), recursive=True)):
            if os.path.isfile(path) and '/out/' not in path and '/target/' not in path:
                yield path


def read(path):
    with open(path, encoding='utf-8') as f:
        return f.read()


def snake(name):
    return re.sub(r'(?<=[a-z0-9])[A-Z]', lambda m: '_' + m[0].lower(), name).replace('-', '_')


def is_odd(name):
    """Whether a name is spelled in the old way: a capital inside a word that begins small, or a hyphen."""
    return bool(ODD.search(name)) and not name.startswith('--') and (name[0].islower() or '-' in name)


def declared():
    """Each name that the texts declare, with whether it is a function into types."""
    found = collections.defaultdict(bool)
    for path in texts('crates/*/specs/**/*.antt', 'crates/*/proofs/**/*.antt'):
        for marks, name, kind in DECLARED.findall(read(path)):
            found[name] |= bool(marks) and bool(re.search(r'→ Type 0$', kind))
    return found


def of_libraries():
    """The names that the texts import from a library, each of which keeps its spelling here too."""
    own = {os.path.basename(os.path.dirname(p)) for p in glob.glob(os.path.join(ROOT, 'crates/*/src'))}
    found = set()
    for path in texts('crates/*/specs/**/*.antt', 'crates/*/proofs/**/*.antt'):
        for module, items in re.findall(r'\buse ([\w.+]+)\.\{([^}]*)\}', read(path)):
            steps = module.split('.')
            if steps[0] != 'Rattle' or steps[1] not in own:
                found.update(item.split(' as ')[0].strip() for item in items.split(','))
    return found


def table(names):
    """The new spelling of each name that changes."""
    new = dict(PARAMETERS)
    kept = of_libraries()
    names = {name: kind for name, kind in names.items() if name not in kept}
    heads = collections.defaultdict(list)
    for name in names:
        heads[snake(name) if is_odd(name) else name].append(name)
    for head, group in heads.items():
        # the definition has the plain name; a lemma had hyphens, or underscores from port.py
        group.sort(key=lambda n: (0 if is_odd(n) and '-' not in n else 1 if '-' not in n else 2, n))
        for place, name in enumerate(group):
            target = head if place == 0 else head + '_lem'
            if place > 1:
                sys.exit(f'respell: three names fall together: {group}')
            if names[name] and name[0].islower():
                target = ''.join(w[0].upper() + w[1:] for w in head.split('_'))
            if target != name:
                new[name] = target
    return new | FIELDS


def turned(text, new, keep=lambda text, m: False):
    return TOKEN.sub(lambda m: m[0] if keep(text, m) else new.get(m[0], m[0]), text)


def in_path(text, m):
    """Whether a word is part of a module's path, as `put_le` in Rattle.words.proofs.put_le.Tie."""
    line = text[text.rfind('\n', 0, m.start()) + 1:m.start()]
    return bool(re.match(r'\s*(pub )?use [\w.+]*\.$', line)) and text[m.end():m.end() + 1] == '.'


def antt(text, new):
    """A text of specs/ or proofs/: the code; in comments camel case, and what stands between backquotes."""
    camel = {k: v for k, v in new.items() if '-' not in k and is_odd(k)}
    lines = []
    for line in text.split('\n'):
        code, dashes, comment = line.partition('--')
        if dashes:
            comment = re.sub(r'`[^`]*`', lambda m: turned(m[0], new), comment)
            comment = turned(comment, camel)
        lines.append(turned(code, new, in_path) + dashes + comment)
    return '\n'.join(lines)


def source(text, new):
    """A source file: its clauses and imports, whose words in camel case are none of Rust's."""
    return turned(text, {k: v for k, v in new.items() if '-' not in k and is_odd(k)})


def page(text, new):
    return re.sub(r'`[^`\n]*`', lambda m: turned(m[0].replace('′', "'"), new), text)


def main():
    names = declared()
    new = table(names)
    # what the texts said before port.py, for the texts that port.py leaves
    finals = {new.get(n, n) for n in names}
    older = dict(new)

    def old_word(word):
        word = word.replace('′', "'")
        if word in FIELDS:
            return FIELDS[word]
        if word in older or word in finals or not is_odd(word):
            return older.get(word, LIBRARY.get(word, word))
        s = snake(word)
        if '-' in word and s + '_lem' in finals:
            return s + '_lem'
        return s if s in finals else LIBRARY.get(word, word)

    class Older(dict):
        def get(self, word, default=None):
            return old_word(word)

    for path in texts('crates/*/specs/**/*.antt', 'crates/*/proofs/**/*.antt'):
        save(path, antt(read(path), new))
    for path in texts('crates/*/src/**/*.rt'):
        save(path, source(read(path), new))
    for path in texts('crates/*/must-fail/*.edit', 'tests/edits/*.edit'):
        lines = read(path).split('\n')
        save(path, '\n'.join(tight(turned(l, Older())) if re.match(r'(old|new): ', l) else page(l, Older()) for l in lines))
    for path in texts('README.md', 'docs/*.md'):
        save(path, page(read(path), Older()))
    for path in texts('host/agree/src/*.rs'):
        save(path, re.sub(r'"(?:[^"\\\n]|\\.)*"', lambda m: turned_string(m[0], Older()), read(path)))
    rename_crate()
    for name in sorted(new):
        if new[name].endswith('_lem'):
            print(f'a definition has the name {new[name][:-4]}: the lemma {name} is {new[name]}')
    print(f'respell: {len(new)} names')


def tight(line):
    """An edit's line with each projection written tight, as `f.size` for `f .size`."""
    line = re.sub(r'\((\w) \.(\w+)\)', r'\1.\2', line)
    line = re.sub(r'\(file_of u P N (\S+) \.(\w+)\)', r'(file_of u P N \1).\2', line)
    line = re.sub(r'file_of u P N (\S+) \.', r'(file_of u P N \1).', line)
    return re.sub(r'\b(\w) \.(\w)', r'\1.\2', line)


def turned_string(text, new):
    return text if text == '"' else re.sub(r"[A-Za-z][A-Za-z0-9'′-]*", lambda m: new.get(m[0]), text)


def save(path, text):
    if text != read(path):
        with open(path, 'w', encoding='utf-8') as f:
            f.write(text)


def rename_crate():
    old, new = f'crates/{OLD_CRATE}', f'crates/{NEW_CRATE}'
    if not os.path.isdir(os.path.join(ROOT, old)):
        return
    subprocess.run(['git', 'mv', old, new], cwd=ROOT, check=True)
    for path in texts('crates/*/specs/**/*.antt', 'crates/*/proofs/**/*.antt', 'crates/*/src/**/*.rt'):
        text = re.sub(rf'\bRattle\.{OLD_CRATE}\.', f'Rattle.{NEW_CRATE}.', read(path))
        if path.endswith('.rt'):
            text = re.sub(rf'(?<![\w:]){OLD_CRATE}::', f'{NEW_CRATE}::', text)
        save(path, text)
    for path in texts('crates/*/must-fail/*.edit', 'tests/edits/*.edit'):
        text = re.sub(rf'(?<![\w:]){OLD_CRATE}::', f'{NEW_CRATE}::', read(path))
        save(path, re.sub(rf'(?m)^((?:crate|refused-by): ){OLD_CRATE}$', rf'\1{NEW_CRATE}', text))
    path = os.path.join(ROOT, 'crates.txt')
    lines = []
    for line in read(path).split('\n'):
        name, colon, uses = line.partition(':')
        lines.append(re.sub(rf'\b{OLD_CRATE}\b', NEW_CRATE, line) if colon else line)
    save(path, '\n'.join(lines))
    for path in texts('README.md', 'docs/*.md'):
        save(path, re.sub(rf'crates/{OLD_CRATE}(?![\w])', f'crates/{NEW_CRATE}', read(path)))


if __name__ == '__main__':
    main()
