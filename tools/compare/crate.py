"""Programs over the Rust crate, which cargo builds."""
import json
import os
import pathlib
import subprocess
import sys

# The manifest of a copy of the crate's source, by which cargo takes it instead of the published crate.
COPY = """[package]
name = "codespan-reporting"
version = "0.13.1"
edition = "2021"

[lib]
path = %s

[features]
default = ["std", "termcolor"]
std = []
termcolor = ["dep:termcolor"]
serialization = []

[dependencies]
unicode-width = ">=0.1, <0.3"
termcolor = { version = "1.0", optional = true }
"""


def settings(out):
    """The settings by which cargo takes a copy of the crate, and what that needs from a folder of crates, where the environment names them."""
    source, crates = os.environ.get('CODESPAN_REPORTING'), os.environ.get('CRATES')
    if source:
        copy = out / 'copy'
        copy.mkdir(parents=True, exist_ok=True)
        (copy / 'Cargo.toml').write_text(COPY % json.dumps(str(pathlib.Path(source).resolve() / 'src/lib.rs')))
        yield 'patch.crates-io.codespan-reporting.path=' + json.dumps(str(copy))
    if crates:
        yield from ('source.crates-io.replace-with="folder"', 'source.folder.directory=' + json.dumps(crates), 'net.offline=true')


def built(folder):
    """Builds the program of a folder, and returns its path."""
    out = folder / 'out'
    options = [word for setting in settings(out) for word in ('--config', setting)]
    build = ['cargo', 'build', '--quiet', '--release', '--manifest-path', str(folder / 'Cargo.toml'), '--target-dir', str(out)]
    if subprocess.run(build + options).returncode != 0:
        sys.exit('cargo did not build the program; tools/compare/README.md says how it is built without a network')
    return out / 'release' / folder.name


def results(text):
    """What the program `compare` prints of each case of an input: its name, `rendered`, `failed` or `panicked`, and a text."""
    left = subprocess.run([built(pathlib.Path(__file__).resolve().parent)], input=text.encode(), stdout=subprocess.PIPE, check=True).stdout
    while left:
        head, _, rest = left.partition(b'\n')
        name, kind, length = head.decode().rsplit(' ', 2)
        yield name, kind, rest[:int(length)].decode()
        left = rest[int(length) + 1:]
