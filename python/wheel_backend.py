"""Packs the package as a wheel with the standard library alone, so that `pip install ./python` downloads nothing (PEP 517, PEP 427)."""
import base64
import hashlib
import pathlib
import re
import zipfile

HERE = pathlib.Path(__file__).resolve().parent
PROJECT = (HERE / "pyproject.toml").read_text()


def _field(name):
    return re.search(rf'^{name} = "([^"]*)"', PROJECT, re.M)[1]


def _record(name, content):
    digest = base64.urlsafe_b64encode(hashlib.sha256(content).digest()).rstrip(b"=").decode()
    return f"{name},sha256={digest},{len(content)}\n"


def build_wheel(wheel_directory, config_settings=None, metadata_directory=None):
    version = _field("version").replace("-dev", ".dev0")
    info = f"ringpop-{version}.dist-info"
    head = f"Metadata-Version: 2.1\nName: ringpop\nVersion: {version}\nSummary: {_field('description')}\nRequires-Python: {_field('requires-python')}\n"
    files = {str(it.relative_to(HERE)): it.read_bytes() for it in sorted((HERE / "ringpop").iterdir()) if it.is_file()}
    files[f"{info}/METADATA"] = head.encode()
    files[f"{info}/WHEEL"] = b"Wheel-Version: 1.0\nGenerator: ringpop\nRoot-Is-Purelib: true\nTag: py3-none-any\n"
    files[f"{info}/RECORD"] = ("".join(_record(*it) for it in files.items()) + f"{info}/RECORD,,\n").encode()
    name = f"ringpop-{version}-py3-none-any.whl"
    with zipfile.ZipFile(pathlib.Path(wheel_directory) / name, "w", zipfile.ZIP_DEFLATED) as wheel:
        for path, content in files.items():
            wheel.writestr(zipfile.ZipInfo(path, (1980, 1, 1, 0, 0, 0)), content)
    return name


def build_sdist(sdist_directory, config_settings=None):
    raise NotImplementedError("ringpop is installed from its folder, and has no archive of sources")
