"""The lemmas that nothing cites."""
import collections
import re

LEMMA = re.compile(r'^( *)(?:abbrev |unfoldable )*(pub )?([^\s(){}:;,.◌]+) : (?!goal\.)')
WORD = re.compile(r'[^\s(){}\[\]:;,.]+')
COMMENT = re.compile(r'(^|\s)(--|//[/!]?)( .*)?$')
IMPORT = re.compile(r'\s*(pub )?(ghost )?use ')


def own_lines(text):
    """The lines of a file, without comments and imports: each with its number, with the beginning of the definition that it is of, if any, and with whether
    it is the first line of that. A definition begins at the left or, in a module with parameters, two columns from it."""
    own, indent, is_in_module = None, 0, False
    for number, line in enumerate(text.split('\n'), 1):
        line = COMMENT.sub('', line)
        if line[:1].strip():
            is_in_module = line.startswith('module ')
        found = LEMMA.match(line)
        begins = found is not None and len(found[1]) in ((0, 2) if is_in_module else (0,))
        if begins:
            own, indent = found, len(found[1])
        elif own and line.strip() and len(line) - len(line.lstrip()) <= indent and WORD.findall(line)[:1] not in ([own[3]], ['unfolding']):
            own = None
        if not IMPORT.match(line):
            yield number, line, own, begins


def uncited(root, crates):
    """The lemmas of these crates whose names are nowhere but in their own definitions, a line for each; those that are not `pub`, nowhere in their files."""
    lemmas, uses, uses_in_file = [], collections.Counter(), collections.Counter()
    for path in sorted((root / 'crates').glob('*/*/**/*')):
        crate, *folders = path.relative_to(root / 'crates').parts
        # what `rt` builds is in out/
        if path.suffix not in ('.rt', '.antt', '.edit') or folders[0] == 'out':
            continue
        for number, line, own, begins in own_lines(path.read_text(encoding='utf-8')):
            words = [it for it in WORD.findall(line) if not own or it != own[3]]
            uses.update(words)
            uses_in_file.update((path, it) for it in words)
            if begins and crate in crates and (folders[0] == 'proofs' or folders[:2] == ['specs', 'Lemmas']):
                lemmas.append((path, number, own))
    for path, number, own in lemmas:
        if not (uses[own[3]] if own[2] else uses_in_file[path, own[3]]):
            yield f'{path.relative_to(root).as_posix()}:{number}: {own[3]}'
