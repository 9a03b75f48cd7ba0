"""The functions of sources, and which of them each calls."""
import collections
import re

LITERAL = re.compile(r'//[^\n]*|b?"(?:\\.|[^"\\])*"|b?\'(?:\\[^\']+|[^\\\'\n])\'', re.S)
CLAUSE = re.compile(r'\b(?:requires|ensures)\b\*?\s*\w*\s*\{')
GHOST = re.compile(r'(?:pub(?:\(\w+\))? )?\bghost\b')
BLOCK = re.compile(r'^(?:impl\b([^{]*)|(?:pub(?:\(\w+\))? )?trait (\w+)[^{]*)\{', re.M)
FUNCTION = re.compile(r'^ *(?:pub(?:\(\w+\))? )?(?:const )?(?:unsafe )?fn (\w+)', re.M)
TYPE = re.compile(r'^(?:pub(?:\(\w+\))? )?(?:struct|enum) (\w+)[^{;]*', re.M)
CALL = re.compile(r'(\.\s*)?\b(?:(\w+)(?:::<[^>]*>)?::)?(\w+)(?:::<[^>]*>)?\(')


def spaces(text):
    """As many blanks as the text has characters, in as many lines."""
    return re.sub(r'[^\n]', ' ', text)


def end_of(text, at, stops=''):
    """The index after the bracket that closes the one at this index, or that of the first of the stops that is in no bracket."""
    depth = 0
    while depth or text[at] not in stops:
        depth += (text[at] in '([{') - (text[at] in ')]}')
        at += 1
        if depth == 0 and not stops:
            break
    return at


def code_of(text):
    """A source without comments, literals, clauses and ghost members: each is blanks, so that what is left keeps its place."""
    text = LITERAL.sub(lambda it: spaces(it[0]) if it[0].startswith('//') else f'"{spaces(it[0][1:-1])}"', text)
    for pattern, stops in ((CLAUSE, ''), (GHOST, ';,')):
        for found in reversed([*pattern.finditer(text)]):
            end = end_of(text, found.end(), stops) + 1 if stops else end_of(text, found.end() - 1)
            text = text[:found.start()] + spaces(text[found.start():end]) + text[end:]
    return text


class Function:
    """A function: its source, its code and where that begins, and the type and the trait of its `impl`."""

    def __init__(self, source, found, of_type, trait):
        self.source, self.name, self.type, self.trait, self.start = source, found[1], of_type, trait, found.start()
        body = end_of(source.code, found.end(), '{;')
        self.has_body = source.code[body] == '{'
        self.code = source.code[self.start:end_of(source.code, body) if self.has_body else body]
        self.body = body - self.start

    def __str__(self):
        of = self.type or self.trait
        return f'{of}::{self.name}' if of else self.name

    def place(self, at):
        """The path and the line of an index of the code."""
        return self.source.place(self.start + at)


class Source:
    """A file of code: its crate, its words, the places of its types, the names of its traits, and its functions."""

    def __init__(self, root, path):
        self.path = path.relative_to(root).as_posix()
        self.crate = path.relative_to(root / 'crates').parts[0]
        self.code = code_of(path.read_text(encoding='utf-8'))
        self.words = set(re.findall(r'\w+', self.code))
        self.types = {it[1]: it for it in TYPE.finditer(self.code)}
        self.traits, blocks = set(), []
        for found in BLOCK.finditer(self.code):
            self.traits |= {found[2]} - {None}
            blocks.append((found.start(), end_of(self.code, found.end() - 1), *((None, found[2]) if found[2] else self.names_of(found[1]))))
        self.functions = []
        for found in FUNCTION.finditer(self.code):
            of = next(((it[2], it[3]) for it in blocks if it[0] < found.start() < it[1]), (None, None))
            self.functions.append(Function(self, found, *of))

    def place(self, at):
        """The path and the line of an index of the code."""
        return f'{self.path}:{self.code.count(chr(10), 0, at) + 1}'

    @staticmethod
    def names_of(header):
        """The type and the trait of the header of an `impl`."""
        header = re.sub(r'\bwhere\b.*', '', header, flags=re.S)
        while re.search(r'<[^<>]*>', header):
            header = re.sub(r'<[^<>]*>', '', header)
        names = [it.strip().split('::')[-1] for it in header.split(' for ')]
        return names[-1], names[0] if len(names) == 2 else None


class Sources:
    """The sources of a crate and of those that it uses, with the calls of their functions.

    A trait is meant by its type in `implementations`, and `meant` has the one call that is meant where a function has several. A call of `end` is none.
    """

    def __init__(self, root, crate, implementations, meant, end):
        lines = [it.partition(':') for it in (root / 'crates.txt').read_text(encoding='utf-8').split('\n') if ':' in it and not it.startswith('#')]
        self.used = {name.split()[0]: used.split() for name, _, used in lines}
        self.implementations, self.meant, self.end, self.unmeant = implementations, meant, end, set()
        self.sources = [Source(root, path) for it in sorted(self.below(crate)) for path in sorted((root / 'crates' / it / 'src').glob('**/*.rt'))]
        self.functions = [it for source in self.sources for it in source.functions]
        self.types = {name: source.place(it.start(1)) for source in self.sources for name, it in source.types.items()}
        self.traits = {name: source.crate for source in self.sources for name in source.traits}
        self.named = collections.defaultdict(list)
        for function in self.functions:
            self.named[function.name].append(function)
        self.calls = {function: [*self.calls_of(function)] for function in self.functions}

    def below(self, crate):
        """A crate and those that it uses, also by others."""
        return {crate}.union(*(self.below(it) for it in self.used.get(crate, ()) if it in self.used))

    def known(self, name):
        """The function of this name, with its type's name before it, or None."""
        return next((it for it in self.functions if str(it) == name), None)

    def is_possible(self, function, crates):
        """Whether a function can be called from these crates: it has a body, and its trait is meant by its type."""
        if function.trait in self.traits:
            return function.has_body and self.traits[function.trait] in crates and function.type in (None, self.implementations.get(function.trait))
        return function.source.crate in crates

    def candidates(self, caller, dot, of, name):
        """The functions that a call may be one of, among them the one that is meant. Methods of traits of std are called by the names of their types alone."""
        found = [it for it in self.named.get(name, ()) if self.is_possible(it, self.below(caller.source.crate))]
        words = caller.source.words
        if of and of[0].isupper():
            of = caller.type if of == 'Self' else of
            own = [it for it in found if it.trait is None or it.trait in self.traits]
            return [it for it in own if of in (it.type, it.trait) or of not in (*self.types, *self.traits) and it.trait]
        if not dot:
            return [it for it in found if not it.type and not it.trait]
        methods, meant = [it for it in found if it.type or it.trait], self.known(self.meant.get(str(caller)))
        near = [it for it in methods if it == meant or (it.trait if it.trait in self.traits else it.type) in words]
        if near or any(it.trait in words for it in self.named.get(name, ()) if it.trait in self.traits):
            return near
        return [it for it in methods if not it.trait]

    def calls_of(self, caller):
        """The calls of a function, each with its place; where one of several is meant, without those of the other types."""
        calls = []
        for found in CALL.finditer(caller.code, caller.body):
            if found[3] != self.end:
                calls += [(caller.place(found.start(3)), it) for it in self.candidates(caller, *found.groups())]
        meant = self.known(self.meant.get(str(caller)))
        others = {it.type for _, it in calls if meant and it.name == meant.name and it != meant} - {None}
        self.unmeant |= others
        return [it for it in calls if it[1].type not in others]

    def leading_to(self, goals):
        """The functions whose calls lead to one of the goals, and the goals."""
        found, grown = set(goals), True
        while grown:
            more = {caller for caller, calls in self.calls.items() if caller not in found and any(it in found for _, it in calls)}
            found, grown = found | more, bool(more)
        return found

    def led_to(self, start):
        """The functions to which the calls of this one lead, and itself."""
        found, left = {start}, [start]
        while left:
            new = {it for _, it in self.calls[left.pop()]} - found
            found, left = found | new, [*left, *new]
        return found
