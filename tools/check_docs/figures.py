"""The figures of pages that files show: each with its page, what it counts, the pattern of the text that states it, and the count."""
import re
import subprocess
import sys

TESTING, README, CLAIM, CONTRACTS, MAP = 'docs/TESTING.md', 'README.md', 'docs/CLAIM.md', 'docs/CONTRACTS.md', 'docs/MAP.md'
# lines that nearly each proof changes: no page states them
NOT_STATED = ('lines of specs', 'lines of proofs')


class Files:
    """The paths and the texts of the repository's files, to count in."""

    def __init__(self, paths, texts):
        self.paths, self.texts = paths, texts

    def count(self, pattern, *beginnings):
        """How often the texts of the files whose paths begin so have the pattern."""
        return sum(len(re.findall(pattern, text, flags=re.M)) for path, text in self.texts.items() if path.startswith(beginnings))

    def count_files(self, pattern):
        """How many files have such a path."""
        return sum(re.fullmatch(pattern, it) is not None for it in self.paths)


def figures_of_proofs(files):
    """Of TESTING: crates, edits that have to be refused, and stored runs."""
    count, count_files = files.count, files.count_files
    return (
        (TESTING, 'crates', r'\| (\d+) crates \|', count(r'^\w.*:', 'crates.txt')),
        (TESTING, 'must-fail edits', r'\(must-fail edits\).*?\| (\d+): ', count_files(r'crates/\w+/must-fail/.*\.edit')),
        (TESTING, 'mutants of the second tier', r'^\| mutants of the second tier .*?\| (\d+): ', count_files(r'crates/\w+/mutants/.*\.edit')),
        (TESTING, 'functions of codespan_worked', r'of `codespan_worked` \| (\d+), ', count(r'^(?:pub )?fn ', 'crates/codespan_worked/src/')),
        (TESTING, 'stored runs', r'(\d+) programs \|', count_files(r'crates/\w+/stdout')),
    )


def figures_of_tests(files):
    """Of TESTING: tests."""
    libraries, report = 'crates/codespan_tests/src/', 'crates/report/src/tests'

    def tests(*beginnings):
        return files.count(r'^ *#\[test\]', *beginnings)

    return (
        (TESTING, 'tests', r'^\| tests \|.*?\| (\d+),', tests(libraries, report)),
        (TESTING, 'tests in codespan_tests', r'(\d+) in `codespan_tests`', tests(libraries)),
        (TESTING, 'tests of codespan_lsp', r'(\d+) of them of `codespan_lsp`', tests(libraries + 'lsp')),
        (TESTING, 'tests of the rows', r'(\d+) of the rows', tests(libraries + 'rows')),
        (TESTING, 'tests of codespan_styled', r'^\| tests \|.*? (\d+) of `codespan_styled`', tests(libraries + 'styled')),
        (TESTING, 'tests of codespan_native', r'^\| tests \|.*? (\d+) of `codespan_native`', tests(libraries + 'native')),
        (TESTING, 'tests in report', r'^\| tests \|.*? (\d+) in `report`', tests(report)),
        (TESTING, 'tests of the Python package', r'(\d+) tests of the package', files.count(r'^ *def test_', 'native/python/tests/')),
        (TESTING, 'tests of the tools', r'(\d+) tests of the tools', files.count(r'^ *def test_', 'tools/tests/')),
    )


def figures_of_outputs(files):
    """Of TESTING, README and CONTRACTS: outputs that are stored, and compared."""
    count = files.count
    cases, outputs = count('^case ', 'crates/gallery/stdin'), count('^case ', 'crates/writer_runs/stdin')
    differing = len(set(re.findall(r'^(?!#|difference )\S+$', files.texts['tools/compare/differences'], flags=re.M)))
    return (
        (TESTING, 'cases of the gallery', r'the program\'s .*?\| (\d+) cases \|', cases),
        (TESTING, 'differing cases of the gallery', r'cases, of which (\d+) show', differing),
        (TESTING, 'documents in docs/pictures', r'`docs/pictures` \| (\d+) documents', files.count_files(r'docs/pictures/.*\.svg')),
        (TESTING, 'worked outputs of writer_runs', r'\| (\d+) worked outputs, in three', outputs),
        (TESTING, 'rows of writer_runs', r'styles each, and (\d+) rows', count('^row ', 'crates/writer_runs/stdout')),
        (TESTING, 'suggestions of writer_runs', r'writer; (\d+) suggestions', count('^suggestion ', 'crates/writer_runs/stdout')),
        (TESTING, 'worked outputs of writer_runs', r'texts of (\d+) worked outputs', outputs),
        (TESTING, 'subjects of alloc_failures', r'\| (\d+) subjects', count('^.', 'crates/alloc_failures/stdout')),
        *((page, 'cases of the gallery', r'\d+ of (\d+) cases', cases) for page in (README, CONTRACTS)),
        *((page, 'cases that do not differ', r'(\d+) of \d+ cases', cases - differing) for page in (README, CONTRACTS)),
        (CONTRACTS, 'differing cases of the gallery', r'each of the other (\d+) shows', differing),
    )


def output_of(root, tool, *arguments):
    """What a tool prints; where it fails, it has said why."""
    run = subprocess.run([sys.executable, root / 'tools' / tool, *arguments], stdout=subprocess.PIPE, text=True, check=False)
    return run.stdout if run.returncode == 0 else sys.exit(f'check-docs: tools/{tool} fails')


def figures_of_claim(root):
    """Of CLAIM: what `tools/claim-path` counts."""
    definitions, files, lines = map(int, re.findall(r'\d+', output_of(root, 'claim-path', '--count').splitlines()[-1]))
    return (
        (CLAIM, 'definitions', r'(\d+) definitions in \d+ files', definitions),
        (CLAIM, 'files of definitions', r'definitions in (\d+) files', files),
        (CLAIM, 'lines of definitions', r'files, ([\d,]+) lines', lines),
    )


def figures_of_way(root):
    """Of MAP: what `tools/label-way` prints, a row for each, with names of sources in backticks."""
    for line in output_of(root, 'label-way').splitlines():
        name, _, count = line.rpartition(': ')
        if not name.startswith(NOT_STATED):
            row = re.sub(r'\w+_\w+', r'`\g<0>`', name)
            yield MAP, name, rf'^\| {row} \| ([\d,]+) \|', int(count)


def figures(root, paths, texts):
    """All of them."""
    files = Files(paths, texts)
    return (*figures_of_proofs(files), *figures_of_tests(files), *figures_of_outputs(files), *figures_of_claim(root), *figures_of_way(root))
