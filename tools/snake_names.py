#!/usr/bin/env python3
"""Brings the repository's own names in clauses, specs/ and proofs/ to today's spelling, once, after the kit's port.py.

- A word in lower camel case becomes snake case: 'hazardAt' is 'hazard_at'. Facts, types and modules keep their capitals.
- A plain word with dashes, declared in specs/ or in a lemma file, gets underscores: 'same-state' is 'same_state'. A lemma named for the
  left side of an equation keeps the dashes between its names: 'f64_at-with_f64'.
- A lemma that would have fallen together with a definition keeps its dash; one more, and a fact in lower case, stand in RENAMED.

Names of src/, exported C names, strings, inputs and outputs stay. Documents get the words that were declared, in code font.

    tools/snake_names.py           renames, in the whole tree
    tools/snake_names.py --list    prints old and new, and changes nothing
"""
import pathlib
import re
import sys

ROOT = pathlib.Path(__file__).resolve().parent.parent
TOKEN = re.compile(r"[A-Za-z_0-9ℕℤ≤≡₀-₉]+(?:-[A-Za-z_0-9ℕℤ≤≡₀-₉]+)*(?:['′])*")
DECLARED = re.compile(r"^\s*(?:(?:abbrev|unfoldable|opaque|record|data|pub)\s+)*([A-Za-z_][A-Za-z_0-9'-]*)(?:\s+[({][^\n]*)?\s+:(?:\s|$)", re.M)
# In one file: what would have fallen together with another name there, or is a fact.
RENAMED = {
    'crates/hazards/proofs/AnswerBytes.antt': {'piece_bytes': 'piece_bytes_lem'},
    'crates/engine/proofs/ReplayParts.antt': {'holdsAt': 'HoldsAt'},
}
# Names of the library that a lemma of ours has too: they stay.
OF_LIBRARY = {'not-false', 'pow-suc'}
# Words of the library that stand in names of lemmas.
LIBRARY = set('length append map filter take drop min max add sub mul div mod lt le eq get_or get set slice_set nth cons nil sort '
              'all any sum fold foldl bits of_bits to_bits'.split())


def snake_part(part):
    if not re.match(r'[a-z]', part) or not re.search(r'[a-z0-9][A-Z]', part):
        return part
    return re.sub(r'(?<=[a-z0-9])([A-Z])', lambda m: '_' + m.group(1).lower(), part)


def snake(token):
    return '-'.join(snake_part(part) for part in token.split('-'))


def sources():
    crates = ROOT / 'crates'
    return sorted(p for p in crates.rglob('*') if p.suffix in ('.antt', '.rt', '.edit') and 'out' not in p.relative_to(crates).parts)


def is_lemma_file(path):
    """specs/X.antt and proofs/X.antt, and no proof of a function."""
    return path.suffix == '.antt' and (path.parent.name == 'proofs' or 'specs' in path.parts)


def declared_names():
    names = set()
    for path in sources():
        if is_lemma_file(path):
            names |= set(DECLARED.findall(path.read_text(encoding='utf-8')))
    return names


def words_of_functions():
    """The definitions of specs/ and the library's words, of which a lemma's name may be made."""
    text = '\n'.join(p.read_text(encoding='utf-8') for p in sources() if is_lemma_file(p))
    defined = re.findall(r"^\s*(?:abbrev|unfoldable)\s+(?:pub\s+)?([a-z][A-Za-z_0-9']*)\s", text, re.M)
    return LIBRARY | {snake(name) for name in defined if '_' in snake(name)}


def mapping():
    names = declared_names()
    words = words_of_functions()
    taken = {snake(name) for name in names}
    changes = {}
    for name in names - OF_LIBRARY:
        new = snake(name)
        if '-' in new and not any(part in words or part[:1].isupper() for part in new.split('-')):
            joined = new.replace('-', '_')
            if joined not in taken:
                new = joined
        if new != name:
            changes[name] = new
    return changes


def renamed(text, changes, every):
    def one(match):
        token = match.group(0)
        bare = token.rstrip("'′")
        new = changes.get(bare) or (snake(bare) if every else bare)
        return new + token[len(bare):]
    return TOKEN.sub(one, text)


def in_document(text, changes):
    """Only what stands in code font."""
    return re.sub(r'`[^`\n]+`', lambda m: renamed(m.group(0), changes, False), text)


def main():
    changes = mapping()
    if '--list' in sys.argv[1:]:
        for old, new in sorted(changes.items()):
            print('%s %s' % (old, new))
        return
    for path in sources():
        text = path.read_text(encoding='utf-8')
        own = dict(changes, **RENAMED.get(str(path.relative_to(ROOT)), {}))
        new = renamed(text, own, True)
        if new != text:
            path.write_text(new, encoding='utf-8')
    for path in sorted(list(ROOT.glob('*.md')) + list((ROOT / 'docs').glob('*.md'))):
        if path.name in ('PORT.md', 'PORT-OTHER.md'):
            continue
        text = path.read_text(encoding='utf-8')
        new = in_document(text, changes)
        if new != text:
            path.write_text(new, encoding='utf-8')


if __name__ == '__main__':
    main()
