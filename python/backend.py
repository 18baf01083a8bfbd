"""Builds the wheel of the package, for pip (PEP 517 and 660) and with nothing but the standard library: a wheel is a zip file with the
package, a description of it and a list of checksums. The engine's shared library goes into it where `make` has built that."""
import base64
import hashlib
import pathlib
import re
import sysconfig
import zipfile

HERE = pathlib.Path(__file__).resolve().parent
PACKAGE = HERE / 'barleychime'
SHARED = HERE.parent / 'target' / 'shared' / 'libbarleychime.so'
VERSION = re.search(r"^__version__ = '(.+)'$", (PACKAGE / '__init__.py').read_text(), re.M)[1]
NAME = f'barleychime-{VERSION}'
METADATA = f"""Metadata-Version: 2.1
Name: barleychime
Version: {VERSION}
Summary: Page make-up that is proved: the fewest page turns that a page specification allows
Requires-Python: >=3.9
"""
MOMENT = (1980, 1, 1, 0, 0, 0)  # the same for every file, so that the same sources give the same wheel


def build_wheel(wheel_directory, config_settings=None, metadata_directory=None):
    """The wheel of the package as it stands, for this kind of machine if it has the shared library."""
    files = {f'barleychime/{path.name}': path.read_bytes() for path in sorted(PACKAGE.iterdir()) if path.is_file()}
    if SHARED.is_file():
        files['barleychime/libbarleychime.so'] = SHARED.read_bytes()
        return written(wheel_directory, files, sysconfig.get_platform().replace('-', '_').replace('.', '_'))
    return written(wheel_directory, files, 'any')


def build_editable(wheel_directory, config_settings=None, metadata_directory=None):
    """A wheel that leads to the package in this folder."""
    return written(wheel_directory, {'barleychime.pth': f'{HERE}\n'.encode()}, 'any')


def build_sdist(sdist_directory, config_settings=None):
    raise RuntimeError('the sources are those of the project: build a wheel, pip wheel ./python')


def written(folder, files, platform):
    """The name of the wheel that has these files and what describes them."""
    tag, described = f'py3-none-{platform}', f'{NAME}.dist-info'
    pure = 'true' if platform == 'any' else 'false'
    about = f'Wheel-Version: 1.0\nGenerator: backend.py\nRoot-Is-Purelib: {pure}\nTag: {tag}\n'
    files = {**files, f'{described}/METADATA': METADATA.encode(), f'{described}/WHEEL': about.encode()}
    record = ''.join(f'{name},sha256={checksum(data)},{len(data)}\n' for name, data in files.items())
    files[f'{described}/RECORD'] = (record + f'{described}/RECORD,,\n').encode()
    wheel = f'{NAME}-{tag}.whl'
    with zipfile.ZipFile(pathlib.Path(folder) / wheel, 'w', zipfile.ZIP_DEFLATED) as archive:
        for name, data in files.items():
            entry = zipfile.ZipInfo(name, MOMENT)
            entry.external_attr = (0o755 if name.endswith('.so') else 0o644) << 16
            archive.writestr(entry, data, zipfile.ZIP_DEFLATED)
    return wheel


def checksum(data):
    return base64.urlsafe_b64encode(hashlib.sha256(data).digest()).rstrip(b'=').decode()
