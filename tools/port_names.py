"""Brings this repository's own names to one spelling, once, after /opt/rattle/port/port.py.

Words (definitions, laws, fields, lower-case constructors) go into snake case, facts that were spelt as words into camel case, and a law that would
then have the name of a definition gets `_lem`. Names from src/, exported C names, strings, inputs and outputs stay.
Run it at the top of the repository: python3 tools/port_names.py
"""
import collections
import glob
import os
import re
import sys

FACTS = {
    'twoOperandColumn': 'TwoOperandColumn',
    'oneOperandColumn': 'OneOperandColumn',
    'bitColumn': 'BitColumn',
}
# laws that would have a definition's name, here or in the library, by their spelling after port.py
LAWS = ['goes_on', 'no_key', 'one_more', 'same_names', 'same_place', 'same_text', 'text_in', 'bit-or', 'bit-and', 'bit-xor']
DEFINED = re.compile(
    r'^(?:abbrev\s+|unfoldable\s+)*(?:pub\s+)?(?:abbrev\s+|unfoldable\s+)*([^\s:=(){};,.λ"]+)\s*:\s')
# a definition within an unnamed module
NESTED = re.compile(r'^ {2,}(?:abbrev\s+|unfoldable\s+)*(?:pub\s+)?(?:abbrev\s+|unfoldable\s+)*([^\s:=(){};,.λ"→]+) : ')
TOKEN = re.compile(r'[^\s(){}\[\];,."`⌜⌝λ→×]+')


def snake(name):
    name = re.sub(r'(?<=[a-z0-9])[A-Z]{2}(?=[a-z])', lambda m: ''.join('_' + letter.lower() for letter in m.group(0)), name.replace('-', '_'))
    return re.sub(r'(?<=[a-z0-9])[A-Z]+(?![a-z])|(?<=[a-z0-9])[A-Z]', lambda m: '_' + m.group(0).lower(), name)


def law_files():
    return sorted(glob.glob('crates/*/specs/*.antt') + glob.glob('crates/*/proofs/*.antt'))


def gathered():
    """Names defined in specs/ and in the law files of proofs/, and the fields and constructors of types."""
    names, fields = collections.defaultdict(set), set()
    for path in law_files():
        inside = None
        for line in open(path):
            declared = re.match(r'^(?:pub )?(data|record)\s', line)
            defined = DEFINED.match(line)
            if declared:
                inside = declared.group(1)
            elif line.strip() and not line[0].isspace():
                inside = None
                if defined:
                    names[defined.group(1)].add(path)
            elif inside is None and NESTED.match(line):
                names[NESTED.match(line).group(1)].add(path)
            elif inside == 'record':
                field = re.match(r'^\s+(?:pub )?([^\s:|]+)\s*:', line)
                if field:
                    fields.add(field.group(1))
            elif inside == 'data':
                fields.update(re.findall(r'^\s+(?:pub )?\|?\s*([^\s:|]+)\s*(?::|$)', line))
    return names, fields


def respelled(name, taken, laws):
    if name in FACTS:
        return FACTS[name]
    if not name[0].islower():
        return name
    new = snake(name)
    return new + '_lem' if name in laws or ('-' in name and new in taken) else new


def clause_spans(text):
    """The parts of a .rt file that are ghost: imports, and the braces of clauses."""
    spans = []
    for m in re.finditer(r'^\s*ghost use [^;]*;', text, re.M):
        spans.append(m.span())
    for m in re.finditer(r'\b(?:requires|ensures|invariant)\*?(?: \w+)? \{|^\s*ghost \w+: \{', text, re.M):
        depth, i = 1, m.end()
        while depth:
            depth += {'{': 1, '}': -1}.get(text[i], 0)
            i += 1
        spans.append((m.end(), i))
    return spans


def main():
    # Rattle makes a module `contracts`
    if os.path.exists('crates/choice/specs/Contracts.antt'):
        os.rename('crates/choice/specs/Contracts.antt', 'crates/choice/specs/Promises.antt')
    for path in glob.glob('crates/*/*/*.antt'):
        old = open(path).read()
        new = old.replace('choice.specs.Contracts', 'choice.specs.Promises')
        if path == 'crates/choice/specs/Lib.antt':
            new = new.replace('pub mod Contracts', 'pub mod Promises')
        if new != old:
            open(path, 'w').write(new)
    first = not any('tactic(auto)' in open(path).read() for path in glob.glob('crates/*/src/*.rt'))
    laws = LAWS if first else []
    names, fields = gathered()
    words = set(names) | fields | set(laws)
    plain = {snake(n) for n in words if n[0].islower() and '-' not in n and n not in FACTS}
    table = {n: respelled(n, plain, laws) for n in words}
    table = {old: new for old, new in table.items() if old != new}
    together = collections.defaultdict(set)
    for name in words:
        together[table.get(name, name)].add(name)
    for new, olds in sorted(together.items()):
        if len(olds) > 1:
            print('together:', new, sorted(olds))

    def turn(text):
        def one(m):
            token = m.group(0)
            tail = ''
            if token not in table and token.endswith("'"):
                token, tail = token.rstrip("'"), "'" * (len(token) - len(token.rstrip("'")))
            return table.get(token, token) + tail
        return TOKEN.sub(one, text)

    def turn_ghost(text):
        out, last = [], 0
        for start, end in sorted(clause_spans(text)):
            if start < last:
                continue
            out += [text[last:start], turn(text[start:end])]
            last = end
        return ''.join(out) + text[last:]

    def turn_comments(text):
        return re.sub(r'`[^`\n]+`', lambda m: turn(m.group(0)), text)

    for path in sorted(glob.glob('crates/*/specs/**/*.antt', recursive=True)
                       + glob.glob('crates/*/proofs/**/*.antt', recursive=True)):
        old = open(path).read()
        lines = []
        for line in old.split('\n'):
            at = line.find('--')
            if at >= 0 and (at == 0 or line[at - 1].isspace()):
                lines.append(turn(line[:at]) + turn_comments(line[at:]))
            else:
                lines.append(turn(line))
        new = '\n'.join(lines)
        if new != old:
            open(path, 'w').write(new)
        for token in set(TOKEN.findall(old)) & set(table.values()):
            gone = [n for n in table if table[n] == token and n in set(TOKEN.findall(old))]
            if gone:
                print('look:', path, token, gone)
    for path in sorted(glob.glob('crates/*/src/**/*.rt', recursive=True)):
        old = open(path).read()
        new = turn_comments(turn_ghost(old))
        # a clause names no function of src/, so a definition of the same name needs no alias
        new = re.sub(r'\b(\w+) as specs·\1\b', r'\1', new).replace('specs·', '')
        # plain values are copied, as they were
        if first:
            new = new.replace('#[derive(Drop)]', '#[derive(Clone, Copy)]')
        if first and re.search(r'/src/(lib|main)\.rt$', path):
            lines = new.split('\n')
            at = next(i for i, line in enumerate(lines) if not line.startswith('//'))
            new = '\n'.join(lines[:at] + ['#![tactic(auto)]'] + lines[at:])
        if new != old:
            open(path, 'w').write(new)
    for path in sorted(glob.glob('crates/*/must-fail/*.edit')):
        old = open(path).read()
        new = []
        where = ''
        for line in old.split('\n'):
            if line.startswith('file: '):
                where = line
            if line.startswith(('old:', 'new:')) and where.endswith('.antt'):
                line = line[:4] + turn(line[4:])
            elif not line.startswith(('file:', 'old:', 'new:')):
                line = turn_comments(line)
            new.append(line)
        new = '\n'.join(new)
        if new != old:
            open(path, 'w').write(new)
    for path in sorted(glob.glob('*.md') + glob.glob('docs/*.md') + glob.glob('bench/*.md')):
        old = open(path).read()
        new = turn_comments(old)
        if new != old:
            open(path, 'w').write(new)
    print(len(table), 'names respelled')


if __name__ == '__main__':
    sys.exit(main())
