"""How `.ci/statements` reads the sources and the documents: the declarations of an antt file, what its names mean, and what a page quotes."""
import glob
import re
from functools import cached_property

WORD = re.compile(r'[^\s(){}\[\],;`"]+')
USE = re.compile(r'\s*(?:unfoldable )?(?:pub )?(?:ghost )?use (\S+?)(?:\.\{(.*)\}| as (\S+?)|);?$')
MODULE = re.compile(r'Rattle\.(\w+)\.((?:specs|proofs)\..+)')


def plain(line):
    """A line without its comment."""
    return re.sub(r'(^|\s)--(\s.*|)$', '', line)


def indent(line):
    return len(line) - len(line.lstrip())


def declarations(lines):
    """The declarations of a file, each as its name, its first line and the line after its last, from 0; the head of a module has no name."""
    starts, inside, modules = [], None, []
    for number, line in enumerate(lines):
        text = plain(line).strip()
        if not text or inside is not None and indent(line) > inside:
            continue
        inside = None
        while modules and indent(line) <= modules[-1]:
            modules.pop()
        if indent(line) != (modules[-1] + 2 if modules else 0):
            continue
        kind = re.match(r'(?:abbrev |unfoldable |pub )*(module|record|data|ruleset) (\S+)', text)
        law = re.match(r'(?:abbrev |unfoldable |pub )*([^\s(){}]+) :(?: |$)', text)
        if kind and kind[1] == 'module':
            starts.append((None, number))
            modules.append(indent(line))
        elif kind or law:
            starts.append((kind[2] if kind else law[1], number))
            inside = indent(line) if kind else None
    found = []
    for (name, first), end in zip(starts, [number for _, number in starts[1:]] + [len(lines)]):
        while not plain(lines[end - 1]).strip():
            end -= 1
        found.append((name, first, end))
    return found


class Source:
    """A file of the sources: its declarations, and what names mean in it."""

    def __init__(self, files, path):
        self.files, self.path = files, path
        with open(path, encoding='utf-8') as file:
            self.lines = file.read().split('\n')

    @cached_property
    def declared(self):
        return declarations(self.lines) if self.path.endswith('.antt') else []

    @cached_property
    def names(self):
        """Each name with the file that it comes from and its name there; a case of a `data` stands for the `data`, and a part of an operator for the operator."""
        found = {}
        for name, first, end in self.declared:
            cases = re.findall(r'^\s+(\S+) :', '\n'.join(self.lines[first + 1:end]), flags=re.M) if re.match(r'\s*(pub )?data ', self.lines[first]) else []
            found.update({case: (self.path, name) for case in [name, *cases]})
        for place, many, _ in self.uses():
            for own, _, other in (item.strip().partition(' as ') for item in (many or '').split(',')):
                found[other or own] = (place, own)
        parts = {part: meaning for name, meaning in found.items() if name and '◌' in name for part in filter(None, name.split('◌'))}
        return {**parts, **found}

    @cached_property
    def modules(self):
        """The names that stand for whole files."""
        return {alias: place for place, many, alias in self.uses() if many is None}

    def uses(self):
        """The `use` lines that take from a file of the sources: the file, the names in braces if there are any, and the file's name here."""
        for use in filter(None, map(USE.match, self.lines)):
            place = MODULE.fullmatch(use[1])
            place = place and f"crates/{place[1]}/{place[2].replace('.', '/')}.antt"
            if place in self.files:
                yield place, use[2], use[3] or use[1].rsplit('.', 1)[1]

    def meaning(self, name):
        """The file that declares a name, and its name there."""
        path, own = self.names[name]
        further = self.files[path].names.get(own, (path, own))
        return further if further == (path, own) else self.files[path].meaning(own)

    def cites(self, text, bound=frozenset()):
        """What a text names, but for its variables."""
        for word in WORD.findall(text):
            first, *rest = word.rstrip('.:').split('.')
            if rest and first in self.modules:
                yield self.modules[first], rest[0]
            elif first in self.names and first not in bound:
                yield self.meaning(first)

    def text(self, first, end):
        """The text of a declaration, without comments and without the names of fields and of implicit arguments."""
        body = '\n'.join(line for line in map(plain, self.lines[first:end]) if not USE.match(line))
        return re.sub(r'([{;]\s*)[^\s(){};]+ = ', r'\1', body)


def sources():
    """The sources of all crates by their paths."""
    files = {}
    for kind in ('src/**/*.rt', 'specs/**/*.antt', 'proofs/**/*.antt'):
        for path in sorted(glob.glob(f'crates/*/{kind}', recursive=True)):
            files[path] = Source(files, path)
    return files


def quotations(text):
    """The fenced code of a page, each as its first line, from 1, the file that the line before it names, if it does, and its lines."""
    lines, at = text.split('\n'), 0
    while at < len(lines):
        if lines[at].startswith('```'):
            end = at + 1
            while end < len(lines) and not lines[end].startswith('```'):
                end += 1
            named = re.fullmatch(r'`(\w+/(?:specs|proofs)/[\w/]+)`:', lines[at - 1] if at else '')
            yield at + 2, named and f'crates/{named[1]}.antt', lines[at + 1:end]
            at = end
        at += 1
