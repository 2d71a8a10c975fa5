#!/usr/bin/env python3
"""Turns proofs that name each goal by hand (Proof.antt over 'tie') into today's Invariants.antt and Answers.antt.

    rt check --generated NAMES --old-names      in the crate's folder: lists each goal, step and loop by its old and its new name
    tools/answer_files.py NAMES/names.json CRATE [FUNCTION..]      CRATE: the crate's folder; FUNCTION: as rates/hazard_at, and else all

A path such as 'c.before.before.put-answer.ensures' goes from the goal back to the step, and becomes 'c.put_answer.ensures'. Answers that
are 'search rules' or 'omega arith' are left out: the check tries these itself. What the list does not name stays as it is, after a line
'-- look:'. Only a folder with a Proof.antt over 'tie' is turned; the Proof.antt is removed.
"""
import json
import pathlib
import re
import sys

IDENT = r"[A-Za-z_ℕ][A-Za-z0-9_'’₀-₉-]*"
PATH = re.compile(r"(?<![\w.'-])(" + IDENT + r")((?:\.[A-Za-z0-9_'-]+)+)")
plain = lambda name: name.replace('_', '-').lower()


class Names:
    """What the list says of one function."""

    def __init__(self, record):
        self.record = record
        self.places = []
        self.by_old = {}
        for i, (old, parent, edge, callee, fields) in enumerate(record['places']):
            self.by_old.setdefault(plain(old), i)
            self.places.append((old, parent, edge, callee, fields))
        self.new_places = record['places_by_name']
        self.needs = [(plain(a), b) for a, b in record['needs']]
        self.at = [a for a, _ in record['asked_at']]
        self.loops = record['loops']
        words = set()
        self.collect(record, words)
        self.words = {plain(w): w for w in words if '_' in w}

    def collect(self, x, words):
        if isinstance(x, str):
            for part in re.split(r'[^\w]+', x):
                words.add(part)
            words.update(re.findall(r'[A-Za-z0-9_]+', x))
        elif isinstance(x, dict):
            for k, v in x.items():
                self.collect(k, words)
                self.collect(v, words)
        elif isinstance(x, list):
            for v in x:
                self.collect(v, words)

    def place(self, old):
        return self.by_old.get(plain(old))

    def parent(self, i):
        parent = self.places[i][1]
        return None if parent is None else self.place(parent)

    def need(self, local, type_name):
        """The index of the goal: by the name in the type, or by the local name."""
        tries = [plain(type_name), plain(local)]
        for word in ('overflow-', 'bounds-', 'nonzero-'):
            if plain(type_name).startswith(word):
                tries.append(plain(type_name)[len(word):])
        for word in tries:
            for i, (old, _) in enumerate(self.needs):
                if old == word:
                    return i
        return None

    def arms_of(self, i):
        """The arm entries of a place and of those before it, the nearest first."""
        entries = []
        while i is not None:
            entry = self.record['arms'][i] if i < len(self.record['arms']) else None
            if entry:
                entries.append(entry)
            i = self.parent(i)
        return entries


class Turner:
    def __init__(self, names):
        self.names = names
        self.looks = []
        self.to_place = {}  # helpers that go from one place to another, with the other
        self.steps = {}
        self.local = {}  # lemmas over a place

    def steps_to(self, place):
        """How many steps before the goal a place is, or None."""
        chain = self.chain()
        return chain.index(place) if place in chain else None

    def applied(self, text, env):
        """Helpers from place to place, applied in parentheses, become aliases of the place."""
        for name, place in self.to_place.items():
            form = re.compile(r'\(' + re.escape(name) + r' (?:' + IDENT + r'(?:\.before)*)\)')
            steps = self.steps_to(place)
            if steps is None:
                continue
            alias = 'Place-%d' % place
            env[alias] = steps
            text = form.sub(alias, text)
        return text

    def bare(self, text, env):
        """A place that is handed on whole is the goal's record, so many steps back."""
        def one(match):
            root, fields = match.group(1), match.group(2)
            if root == 'c' and not fields or root not in env:
                return match.group(0)
            steps = env[root] + fields.count('.before')
            if steps >= len(self.chain()):
                return match.group(0)
            return 'c' + '.before' * steps
        return re.sub(r"(?<![\w.'-])(" + IDENT + r")((?:\.before)*)(?![\w.'-])", one, text)

    def word(self, field):
        return self.names.words.get(plain(field), field if re.match(r"(true|false|branch)-|[iI]n-|[A-Z]", field) else field.replace('-', '_'))

    def chain(self):
        """The goal's place and those before it."""
        i, places = self.goal_place, []
        while i is not None:
            places.append(i)
            i = self.names.parent(i)
        return places

    def of_step(self, place, fields):
        """The fields of a step in the new form: the clauses of a contract and the parameters have names."""
        old, _, edge, callee, renames = self.names.places[place]
        every = self.names.record['clauses']
        clauses = every[place] if place < len(every) else None
        fields = list(fields)
        if fields and fields[0] in ('kept', 'last', 'inv') and fields[0] not in dict(renames):
            fields[0] = {'kept': 'auto', 'last': 'new', 'inv': 'invariant'}[fields[0]]
        if len(fields) > 1 and fields[0] == 'ensures' and fields[1].isdigit() and clauses and clauses.get('fields'):
            if int(fields[1]) < len(clauses['fields']):
                fields[1] = clauses['fields'][int(fields[1])]
        if fields:
            known = dict(renames)
            if fields[0] in known:
                fields[0] = known[fields[0]]
            elif fields[0] in ('new', 'auto') and len(fields) > 1 and fields[1] in '01':
                params = self.names.record['params'].get(callee or '', [])
                k = 0
                while 1 + k < len(fields) and fields[1 + k] == '1':
                    k += 1
                if 1 + k < len(fields) and fields[1 + k] == '0' and k < len(params):
                    fields[1:2 + k] = [params[k]]
        return fields

    def walk(self, steps, fields):
        """Goes along the fields from the place that many steps before the goal. ('place', steps), or ('path', text) with what is cited
        in the new form. Today's checker has steps of its own between, so the nearest step of the name is taken."""
        fields = list(fields)
        while fields and fields[0] == 'before':
            steps += 1
            fields.pop(0)
        if not fields:
            return ('place', steps)
        head = fields.pop(0)
        for arm, _, entries in self.names.arms_of(self.goal_place):
            for new, label, path in entries:
                if plain(label) == plain(head) and fields[:len(path)] == path and not new.endswith('-own'):
                    return ('path', '.'.join(['c', arm, new] + [self.word(f) for f in fields[len(path):]]))
        near = [(abs(k - steps), k, i) for k, i in enumerate(self.chain())
                if self.names.places[i][2][0] and plain(self.names.places[i][2][0]) == plain(head)]
        if near:
            old, _, edge, callee, renames = self.names.places[min(near)[2]]
            fields = self.of_step(min(near)[2], fields)
            return ('path', '.'.join(['c', edge[1]] + [self.word(f) for f in fields]))
        if head in ('args', 'requires', 'ranges', 'well-formed', 'fits', 'told', 'auto', 'utf8'):
            pre = self.names.record.get('pre')
            if head == 'requires' and fields and fields[0].isdigit() and pre and int(fields[0]) < len(pre['fields']):
                fields[0] = pre['fields'][int(fields[0])]
            return ('path', '.'.join(['c'] + [f.replace('-', '_') for f in [head] + fields]))
        return None

    def replace(self, text, env):
        def one(match):
            root, fields = match.group(1), match.group(2)[1:].split('.')
            if root in self.steps:
                return root + ''.join('.' + self.word(f) for f in self.of_step(self.steps[root], fields))
            if root not in env:
                if root[:1].isupper() or root in ('tie', 'goal', 'l'):
                    return match.group(0)
                return root + ''.join('.' + f.replace('-', '_') for f in fields)
            found = self.walk(env[root], fields)
            if found is None:
                self.looks.append(match.group(0))
                return match.group(0)
            return 'c' + '.before' * found[1] if found[0] == 'place' else found[1]
        return PATH.sub(one, self.bare(text, env))

    def type_of(self, match):
        place = self.names.place(match.group(1))
        return match.group(0) if place is None else 'goal.' + self.names.new_places[place]

    def helper(self, block):
        """A lemma over the facts at a place, for several goals."""
        place_type = r"(?:tie|lts)\.([A-Z][A-Za-z0-9_-]*)((?: (?:invariant|decreases)-loop[\w-]*)*)"
        moved = re.search(r"^(?:abbrev )?(" + IDENT + r") : " + place_type + r"\s*→ " + place_type + r"\s*$", block, re.M)
        if moved:
            self.to_place[moved.group(1)] = self.names.place(moved.group(4))
            return None
        first = re.search(place_type, block)
        if not first or self.names.place(first.group(1)) is None:
            return block
        # the facts go by name whatever the place: the lemma becomes a local one of each goal that uses it
        self.goal_place = self.names.place(first.group(1))
        lines = [l for l in block.split('\n') if not l.startswith('--')]
        text = '\n'.join(lines)
        made = re.match(r"(?:abbrev )?(" + IDENT + r") : \((" + IDENT + r") : " + place_type + r"\)\s*→\s*(.*?)\n(unfolding[^\n]*\n)?\1 (?:" + IDENT + r") =\s*(.*)$", text, re.S)
        plain_form = None
        if not made:
            plain_form = re.match(r"(?:abbrev )?(" + IDENT + r") : " + place_type + r"\s*→\s*(.*?)\n(unfolding[^\n]*\n)?\1 (" + IDENT + r") =\s*(.*)$", text, re.S)
        if not made and not plain_form:
            return '-- look: a lemma over a place\n' + block
        name = (made or plain_form).group(1)
        kind, unfolding, body = made.group(5, 6, 7) if made else (plain_form.group(4), plain_form.group(5), plain_form.group(7))
        self.looks = []
        binder = made.group(2) if made else 'c'
        bound = re.search(r'^' + re.escape(name) + r' (' + IDENT + r') =', text, re.M).group(1)
        kind = self.answer(kind, self.goal_place, binder)
        body = self.answer(body, self.goal_place, bound)
        self.local[name] = (kind.strip(), body.strip(), unfolding or '', self.goal_place)
        return None

    def with_local(self, body):
        """The lemmas over a place that an answer uses, before it."""
        used = []
        def note(text):
            for name in self.local:
                if name not in used and re.search(r"(?<![\w.'-])" + re.escape(name) + r"(?![\w'-])", text):
                    used.append(name)
                    note(self.local[name][0] + ' ' + self.local[name][1])
        note(body)
        if not used:
            return body, set()
        call = lambda text: self.uncalled(text, used)
        lets, unfoldings = '', set()
        for name in [n for n in self.local if n in used]:
            kind, inner, unfolding, _ = self.local[name]
            unfoldings |= set(unfolding.split()[1:])
            lets += 'let %s : %s =\n    %s in\n    ' % (name, call(kind), call(inner))
        return '\n' + lets + call(body).strip(), unfoldings

    def uncalled(self, text, used):
        for name in used:
            text = re.sub(r"\((" + re.escape(name) + r") c(?:\.before)*\)", r"\1", text)
            text = re.sub(r"(?<![\w.'-])(" + re.escape(name) + r") c(?:\.before)*(?![\w.'-])", r"\1", text)
        return text

    def answer(self, body, place, binder='c'):
        self.goal_place = place
        env = {'c': 0, binder: 0}
        self.steps = {}
        body = re.sub(r"\.loop(\d*)\.inv(?![\w'-])", r".loop\1.invariant", body)
        body = re.sub(r"(?<![\w'-])(c|[a-z])\.inv(?![\w'-])", r"\1.invariant", body)
        body = re.sub(r"\.pre(?![\w'-])", ".requires", body)
        lines = []
        for line in body.split('\n'):
            before = None
            while before != line:
                before, line = line, self.applied(line, env)
            call = re.match(r"^(.*?let " + IDENT + r" = )(" + IDENT + r") (" + IDENT + r"(?:\.before)*)( in\b.*)$", line)
            if call and call.group(2) in self.to_place and self.steps_to(self.to_place[call.group(2)]) is not None:
                alias = 'Place-%d' % self.to_place[call.group(2)]
                env[alias] = self.steps_to(self.to_place[call.group(2)])
                line = call.group(1) + alias + call.group(4)
            made = re.match(r"^(.*?)let (" + IDENT + r") = (" + IDENT + r")((?:\.[A-Za-z0-9_'-]+)*) in\s*(.*)$", line)
            if made and made.group(3) in env:
                fields = made.group(4)[1:].split('.') if made.group(4) else []
                found = self.walk(env[made.group(3)], fields)
                if found and found[0] == 'path' and found[1].count('.') == 1:
                    for i in self.chain():
                        if 'c.' + self.names.places[i][2][1] == found[1]:
                            self.steps[made.group(2)] = i
                if found and found[0] == 'place':
                    env[made.group(2)] = found[1]
                    rest = made.group(1) + made.group(5)
                    if rest.strip():
                        lines.append(self.replace(rest, env))
                    continue
            # an alias is hidden by another let of its name
            hidden = re.match(r"^.*?let (" + IDENT + r") (?:=|:)", line)
            new = self.replace(line, env)
            if hidden and hidden.group(1) in env and hidden.group(1) != 'c':
                env = dict(env)
                del env[hidden.group(1)]
            lines.append(new)
        return '\n'.join(lines)


def blocks_of(text):
    """Comment, use lines, and blocks: each (name, type, lines)."""
    head, uses, blocks = [], [], []
    for chunk in re.split(r'\n\s*\n', text.strip('\n')):
        lines = chunk.split('\n')
        while lines and (lines[0].startswith('--') and not blocks and not uses):
            head.append(lines.pop(0))
        while lines and (lines[0].startswith('use ') or lines[0].startswith('open ')):
            uses.append(lines.pop(0))
        if lines:
            blocks.append('\n'.join(lines))
    return head, uses, blocks


SIGNATURE = re.compile(r"^((?:--[^\n]*\n)*)(?:(abbrev|unfoldable) )?(?:pub )?(" + IDENT + r") :\s+(tie\.[^\n]*)\n", re.M)


def unfolded(rest):
    """The lines 'unfolding ..' after a signature, and what follows them."""
    lines = []
    while rest.startswith('unfolding'):
        line, _, rest = rest.partition('\n')
        lines.append(line)
    return lines, rest


def invariant(block, name, names):
    """Of 'invariant-loop ends i₀ i = body': the loop's new name, and the body over l."""
    loop = None
    for (old, new), variables in names.loops:
        if plain(old) == plain(name.split('-', 1)[1]):
            loop, k = (new, variables), [l[0][0] for l in names.loops].index(old)
    if loop is None:
        return None
    new, variables = loop
    changed = names.record['changed'][k]
    signature = SIGNATURE.match(block)
    unfolding, rest = unfolded(block[signature.end():])
    made = re.match(re.escape(name) + r"((?: [^\s=]+)*) =\s*", rest)
    given = made.group(1).split()
    body = rest[made.end():]
    to = {}
    for i, variable in enumerate(variables):
        if i < len(given):
            to[given[i]] = ('l.initial.' if changed[i] else 'l.') + variable
    now = [v for i, v in enumerate(variables) if changed[i]]
    for i, variable in enumerate(now):
        if len(variables) + i < len(given):
            to[given[len(variables) + i]] = 'l.' + variable
    bound = set()
    for group in re.findall(r"λ ([^.]*)\.", body):
        bound |= set(re.findall(IDENT, group))
    to = {k: v for k, v in to.items() if k not in bound and k != '_'}
    token = re.compile(r"(?<![\w.'-])(" + IDENT + r")")
    body = token.sub(lambda m: to.get(m.group(1), m.group(1)), body)
    kind = name.split('-', 1)[0]
    at = kind + '-' + new
    return '\n'.join(['abbrev pub %s : goal.%s' % (at, at)] + unfolding + ['%s l =%s' % (at, ('\n    ' + body) if '\n' in body else ' ' + body)])


def as_record(body, fields):
    """The tuple that the answer ends in, as a record of the clauses."""
    end = body.rstrip()
    if not end.endswith(')'):
        return body
    depth = 0
    for start in range(len(end) - 1, -1, -1):
        depth += (end[start] in ')]}') - (end[start] in '([{')
        if depth == 0:
            break
    before, inner = end[:start], end[start + 1:-1]
    if not re.search(r'(^|=|in)\s*$', before):
        return body
    parts, depth, last = [], 0, 0
    for k, ch in enumerate(inner):
        depth += (ch in '([{') - (ch in ')]}')
        if ch == ',' and depth == 0:
            parts.append(inner[last:k])
            last = k + 1
    parts.append(inner[last:])
    parts = [x.strip() for x in parts if x.strip()]
    if len(parts) != len(fields):
        return body
    return before + 'record {\n' + ''.join('      %s = %s;\n' % (f, x) for f, x in zip(fields, parts)) + '    }'


def turn(folder, path, names):
    text = (folder / 'Proof.antt').read_text(encoding='utf-8')
    head, uses, blocks = blocks_of(text)
    module = re.search(r'^use (Rattle\.\S+)\.Tie as tie$', text, re.M)
    if not module:
        return False
    module = module.group(1)
    uses = [u for u in uses if not u.startswith('use %s.' % module)]
    invariants, answers = [], []
    turner = Turner(names)
    for block in blocks:
        signature = SIGNATURE.match(block)
        if re.search(r'tie\.close', block):
            continue
        if not signature:
            made = turner.helper(block)
            if made:
                answers.append(made)
            continue
        comment, _, name, kind = signature.groups()
        if re.match(r'tie\.(invariant|decreases|InvT|MeasureT)-', kind):
            made = invariant(block, name, names)
            invariants.append(comment + (made or '-- look: no loop of this name\n' + block))
            continue
        need = re.match(r"tie\.Need-(\S+)", kind)
        if not need:
            made = turner.helper(block)
            if made:
                answers.append(made)
            continue
        index = names.need(name, need.group(1))
        if index is None:
            continue  # there is no such goal any more
        new = names.needs[index][1]
        place = names.place(names.at[index])
        unfolding, rest = unfolded(block[signature.end():])
        made = re.match(re.escape(name) + r"((?: [^\s=]+)*) =\s*", rest)
        if not made:
            answers.append('-- look:\n' + block)
            continue
        body = rest[made.end():]
        more = ''.join(' ' + a for a in made.group(1).split()[1:] if a != 'κs')
        if not unfolding and re.sub(r'\s+', ' ', body).strip() in ('search rules', 'omega arith', 'tt'):
            continue
        turner.looks = []
        body = turner.answer(body, place)
        for old_word, new_word in {tuple(pair) for pair in names.record['args']}:
            if old_word.startswith('.args ') and new_word.startswith('.args '):
                body = re.sub(r'\.' + re.escape(old_word[7:]) + r"(?![\w'-])", new_word[6:], body)
        body, more_unfolding = turner.with_local(body)
        if more_unfolding:
            unfolding = ['unfolding ' + ' '.join(sorted(more_unfolding | {w for u in unfolding for w in u.split()[1:]}))]
        fields = names.record['asked'].get(names.record['needs'][index][0])
        if fields:
            body = as_record(body, fields)
        look = ''.join('-- look: %s\n' % l for l in turner.looks)
        answers.append(comment + look + '\n'.join(['pub %s : goal.%s' % (new, new)] + unfolding
                                                  + ['%s c%s =%s' % (new, more, ('\n    ' + body.strip()) if '\n' in body.strip() else ' ' + body.strip())]))
    shared = []
    for block in list(answers):
        name = re.match(r"(?:--[^\n]*\n)*(?:abbrev|unfoldable) (?:pub )?(" + IDENT + r") ", block)
        if name and 'goal.' not in block and any(re.search(r"(?<![\w.'-])" + re.escape(name.group(1)) + r"(?![\w'-])", i) for i in invariants):
            answers.remove(block)
            invariants.insert(len(shared), re.sub(r"^(abbrev|unfoldable) (?!pub)", r"\1 pub ", block, flags=re.M))
            shared.append(name.group(1))
    if shared:
        uses.append('use %s.Invariants.{%s}' % (module, ', '.join(shared)))
    (folder / 'Proof.antt').unlink()
    if invariants:
        (folder / 'Invariants.antt').write_text('\n'.join(head + [u for u in uses if '.Invariants.{' not in u] + ['use %s.Given as goal' % module, '', '\n\n'.join(invariants)]) + '\n', encoding='utf-8')
    if answers:
        (folder / 'Answers.antt').write_text('\n'.join(head + uses + ['use %s.Goals as goal' % module, '', '\n\n'.join(answers)]) + '\n', encoding='utf-8')
    return True


def main():
    listed = json.loads(pathlib.Path(sys.argv[1]).read_text(encoding='utf-8'))
    crate = pathlib.Path(sys.argv[2])
    wanted = set(sys.argv[3:])
    for module, record in sorted(listed.items()):
        made = re.match(r'Rattle-[\w]+-proofs\.(.*)\.Lts$', module)
        if not made:
            continue
        path = made.group(1).replace('.', '/')
        folder = crate / 'proofs' / path
        if wanted and path not in wanted:
            continue
        if (folder / 'Proof.antt').is_file():
            print(path, 'turned' if turn(folder, path, Names(record)) else 'left')


if __name__ == '__main__':
    main()
