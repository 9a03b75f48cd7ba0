"""The outputs that pages quote: each has whole lines of a stored output, which CI compares with what a program writes."""
import os
import re

# the languages of blocks that are outputs
LANGUAGES = ('text', 'html')
STORED = re.compile(r'crates/\w+/stdout|native/c/\w+\.(?:plain|ansi)|native/rust/tests/original/outputs|docs/pictures/\w+\.html')
LINK = re.compile(r'\]\(([^)\s]+)\)')


def stored_outputs(root, paths):
    """The texts of the stored outputs by path, each after a newline."""
    return {path: '\n' + (root / path).read_text(encoding='utf-8') for path in paths if STORED.fullmatch(path)}


def linked_paths(page, begin, end):
    """The paths that a page links in its prose between two of its lines, from the top of the repository."""
    folder = os.path.dirname(page.path)
    for number, line in page.prose:
        if begin < number < end:
            yield from (os.path.normpath(os.path.join(folder, it)) for it in LINK.findall(line))


def wrong_outputs(page, outputs):
    """The outputs of a page that are no whole lines, one after another, of a stored output that is linked after the block before."""
    begin = 0
    for start, language, lines in page.blocks:
        linked = [outputs[path] for path in linked_paths(page, begin, start) if path in outputs]
        if language in LANGUAGES and not any('\n'.join(['', *lines, '']) in it for it in linked):
            yield start, f'no output that is linked above has the lines that begin with `{"".join(lines[:1])}`'
        begin = start + len(lines)
