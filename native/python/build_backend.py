"""Builds the wheel: the module, its licenses, and the shared object that `make` builds beside this
folder.

It needs nothing but Python's library, `make` and a C compiler, so that `pip install` works without a
network. The shared object is `../build/libcodespan.so`, which `make` brings up to date, or what the
environment variable CODESPAN_LIBRARY names. The setting `platform` names the platform of the
wheel in place of the machine's."""
import base64
import hashlib
import os
import shutil
import subprocess
import sysconfig
import tomllib
import zipfile
from pathlib import Path

HERE = Path(__file__).resolve().parent
NATIVE = HERE.parent
MODULE = 'codespan'
TYPED = 'py.typed'
# The oldest time that a zip file can hold: the same sources make the same wheel.
NO_TIME = (1980, 1, 1, 0, 0, 0)


class UnsupportedOperation(Exception):
    """What pip expects of a backend that makes no source distributions."""


def library():
    """Returns the path of the shared object."""
    named = os.environ.get('CODESPAN_LIBRARY')
    if named:
        if not Path(named).is_file():
            raise FileNotFoundError('CODESPAN_LIBRARY is %s, which is not there' % named)
        return Path(named)
    if shutil.which('make') is None:
        raise FileNotFoundError('building the wheel needs `make` and a C compiler, or '
                                'CODESPAN_LIBRARY, the path of libcodespan.so')
    subprocess.run(['make', '--silent', '-C', str(NATIVE), 'build/libcodespan.so'], check=True)
    return NATIVE / 'build' / 'libcodespan.so'


def project():
    """Returns the table [project] of pyproject.toml."""
    return tomllib.loads((HERE / 'pyproject.toml').read_text())['project']


def licenses():
    """Returns the texts of the licenses by name: those of the repository."""
    top = NATIVE.parent
    paths = [top / 'LICENSE', top / 'NOTICE', *sorted((top / 'LICENSES').iterdir())]
    return {path.relative_to(top).as_posix(): path.read_bytes() for path in paths}


def metadata(table):
    """Returns the text of METADATA."""
    lines = [
        'Metadata-Version: 2.1',
        'Name: ' + table['name'],
        'Version: ' + table['version'],
        'Summary: ' + table['description'],
        'License: ' + table['license']['text'],
        *('License-File: ' + name for name in licenses()),
        'Requires-Python: ' + table['requires-python'],
    ]
    return '\n'.join(lines) + '\n'


def record_line(name, data):
    """Returns the line of RECORD of a file."""
    digest = base64.urlsafe_b64encode(hashlib.sha256(data).digest()).rstrip(b'=').decode()
    return '%s,sha256=%s,%d\n' % (name, digest, len(data))


def wheel_files(info, tag):
    """Returns the files of the wheel by path, but for RECORD, where `info` is its folder of
    metadata."""
    wheel = 'Wheel-Version: 1.0\nGenerator: build_backend\nRoot-Is-Purelib: false\nTag: %s\n' % tag
    files = {'%s/%s' % (MODULE, path.name): path.read_bytes()
             for path in sorted((HERE / MODULE).glob('*.py'))}
    files['%s/%s' % (MODULE, TYPED)] = (HERE / MODULE / TYPED).read_bytes()
    files[MODULE + '/libcodespan.so'] = library().read_bytes()
    files[info + 'METADATA'] = metadata(project()).encode()
    files[info + 'WHEEL'] = wheel.encode()
    files.update((info + 'licenses/' + name, data) for name, data in licenses().items())
    return files


def build_wheel(wheel_directory, config_settings=None, metadata_directory=None):
    """Writes the wheel to a folder, and returns its name."""
    table = project()
    base = '%s-%s' % (table['name'].replace('-', '_'), table['version'])
    platform = (config_settings or {}).get('platform') or sysconfig.get_platform()
    tag = 'py3-none-' + platform.replace('-', '_').replace('.', '_')
    info = base + '.dist-info/'
    files = wheel_files(info, tag)
    record = ''.join(record_line(name, data) for name, data in files.items())
    files[info + 'RECORD'] = (record + info + 'RECORD,,\n').encode()
    name = '%s-%s.whl' % (base, tag)
    with zipfile.ZipFile(Path(wheel_directory) / name, 'w', zipfile.ZIP_DEFLATED) as archive:
        for path, data in files.items():
            entry = zipfile.ZipInfo(path, NO_TIME)
            entry.external_attr = (0o100755 if path.endswith('.so') else 0o100644) << 16
            archive.writestr(entry, data, zipfile.ZIP_DEFLATED)
    return name


def build_sdist(sdist_directory, config_settings=None):
    """Fails: the shared object can not be built from Python sources."""
    raise UnsupportedOperation('no source distributions')
