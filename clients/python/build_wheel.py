"""Makes the wheel that pip installs, by the standard library alone, so that nothing is fetched (PEP 517)."""
import base64
import hashlib
import os
import re
import zipfile

HERE = os.path.dirname(os.path.abspath(__file__))


def _read(path):
    with open(os.path.join(HERE, path), "rb") as it:
        return it.read()


def _value(name):
    """What pyproject.toml says of the project."""
    return re.search(rf'^{name} = "(.*)"$', _read("pyproject.toml").decode(), re.MULTILINE).group(1)


def build_wheel(wheel_directory, config_settings=None, metadata_directory=None):
    """Makes the wheel in a folder and gives its name."""
    version = _value("version")
    stem = f"{_value('name').replace('-', '_')}-{version}"
    head = f"Metadata-Version: 2.1\nName: {_value('name')}\nVersion: {version}\nSummary: {_value('description')}\n"
    head += f"Requires-Python: {_value('requires-python')}\nDescription-Content-Type: text/markdown\n\n"
    files = {name: _read(name) for name in ("census/__init__.py", "census/py.typed")}
    files[f"{stem}.dist-info/METADATA"] = head.encode() + _read("README.md")
    files[f"{stem}.dist-info/WHEEL"] = b"Wheel-Version: 1.0\nGenerator: census\nRoot-Is-Purelib: true\nTag: py3-none-any\n"
    record = f"{stem}.dist-info/RECORD"
    lines = []
    with zipfile.ZipFile(os.path.join(wheel_directory, f"{stem}-py3-none-any.whl"), "w", zipfile.ZIP_DEFLATED) as wheel:
        for name, content in files.items():
            wheel.writestr(name, content)
            digest = base64.urlsafe_b64encode(hashlib.sha256(content).digest()).rstrip(b"=").decode()
            lines.append(f"{name},sha256={digest},{len(content)}\n")
        wheel.writestr(record, "".join(lines) + f"{record},,\n")
    return f"{stem}-py3-none-any.whl"
