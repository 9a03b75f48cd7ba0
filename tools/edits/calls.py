"""What the program `edit_cases` reads and writes of a suggestion: what each call returns, by suggestions.py and for_tools.py."""
from for_tools import UNITS, action, check_fix_its, check_unified, fix_its, texts, unified
from suggestions import files_of, rich, short


def expected(case):
    """What the program has to write, and the files with an edit, or none where there is an error."""
    files = files_of(case)
    if isinstance(files, str):
        said = b' error %d\n%s' % (len(files), files.encode())
        names = ('rich', 'medium', 'short', 'colors', 'diff', 'fix-its', 'apply', 'utf8', 'utf16', 'utf32')
        return b''.join(name.encode() + said for name in names), None
    patch, fixes = unified(files), fix_its(files)
    check_unified(files, patch)
    check_fix_its(files, fixes)
    made = [('rich', rich(case, files)), ('medium', short(case, files)), ('short', short(case, files)), ('colors', rich(case, files, True)), ('diff', patch),
            ('fix-its', fixes), ('apply', texts(files)), *((encoding, action(case, files, encoding)) for encoding in UNITS)]
    parts = [(name.encode(), text if isinstance(text, bytes) else text.encode()) for name, text in made]
    return b''.join(b'%s %d\n%s' % (name, len(text), text) for name, text in parts), files


def given(case):
    """The input of the program for a case."""
    numbers = [case.tab, case.before, case.after, int(case.ascii), case.applicability, len(case.message.encode()), len(case.files)]
    numbers += [length for name, text in case.files for length in (len(name.encode()), len(text))]
    numbers += [number for file, start, end, new in case.edits for number in (file, start, end, len(new))]
    parts = [case.message.encode(), *(part for name, text in case.files for part in (name.encode(), text)), *(edit[3] for edit in case.edits)]
    return ' '.join(['suggestion', *map(str, numbers)]).encode() + b'\n' + b''.join(parts)
