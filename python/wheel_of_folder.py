"""Builds the wheel for pip, with Python's standard library alone: `pip install ./python` needs no network."""
import base64
import hashlib
import os
import re
import zipfile

HERE = os.path.dirname(os.path.abspath(__file__))
FILES = ('__init__.py', '_calls.py', 'py.typed')


def _project():
    with open(os.path.join(HERE, 'pyproject.toml'), encoding='utf-8') as file:
        return dict(re.findall(r'^(name|version|description|requires-python) = "(.*)"$', file.read(), re.MULTILINE))


def _contents():
    """Name in the wheel to bytes."""
    project = _project()
    info = '%s-%s.dist-info/' % (project['name'], project['version'])
    contents = {}
    for name in FILES:
        with open(os.path.join(HERE, 'stacker', name), 'rb') as file:
            contents['stacker/' + name] = file.read()
    about = 'Metadata-Version: 2.1\nName: %s\nVersion: %s\nSummary: %s\nRequires-Python: %s\n'
    contents[info + 'METADATA'] = (about % tuple(project[key] for key in ('name', 'version', 'description', 'requires-python'))).encode()
    contents[info + 'WHEEL'] = b'Wheel-Version: 1.0\nGenerator: wheel_of_folder\nRoot-Is-Purelib: true\nTag: py3-none-any\n'
    record = ''
    for name, data in contents.items():
        digest = base64.urlsafe_b64encode(hashlib.sha256(data).digest()).rstrip(b'=').decode()
        record += '%s,sha256=%s,%d\n' % (name, digest, len(data))
    contents[info + 'RECORD'] = (record + info + 'RECORD,,\n').encode()
    return contents


def build_wheel(wheel_directory, config_settings=None, metadata_directory=None):
    project = _project()
    name = '%s-%s-py3-none-any.whl' % (project['name'], project['version'])
    with zipfile.ZipFile(os.path.join(wheel_directory, name), 'w', zipfile.ZIP_DEFLATED) as wheel:
        for path, data in _contents().items():
            wheel.writestr(zipfile.ZipInfo(path), data, zipfile.ZIP_DEFLATED)
    return name
