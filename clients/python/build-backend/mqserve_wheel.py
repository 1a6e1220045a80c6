"""What pyproject.toml names to make packages for pip: a wheel, and an archive of the sources."""
import base64
import hashlib
import io
import pathlib
import re
import tarfile
import zipfile

PLACE = pathlib.Path(__file__).resolve().parent.parent
MODULES = [*sorted(PLACE.glob("mqserve/*.py")), PLACE / "mqserve/py.typed", PLACE / "mqserve_jobs.py", PLACE / "mqserve_top.py"]
SOURCES = [PLACE / "pyproject.toml", pathlib.Path(__file__).resolve(), *MODULES]
WHEEL = "Wheel-Version: 1.0\nGenerator: mqserve_wheel\nRoot-Is-Purelib: true\nTag: py3-none-any\n"
EPOCH = (1980, 1, 1, 0, 0, 0)       # the same files give the same wheel


def described():
    """The texts of the project's table."""
    table = (PLACE / "pyproject.toml").read_text(encoding="utf-8").split("[project]\n", 1)[1]
    return dict(re.findall(r'(?m)^([\w-]+) = "(.*)"$', table))


def metadata():
    project = described()
    return (f"Metadata-Version: 2.1\nName: {project['name']}\nVersion: {project['version']}\nSummary: {project['description']}\n"
            f"License: Apache-2.0 OR MIT\nRequires-Python: {project['requires-python']}\n")


def record_of(name, content):
    digest = base64.urlsafe_b64encode(hashlib.sha256(content).digest()).rstrip(b"=").decode()
    return f"{name},sha256={digest},{len(content)}\n"


def build_wheel(wheel_directory, config_settings=None, metadata_directory=None):
    version = described()["version"]
    folder, name = f"mqserve-{version}.dist-info", f"mqserve-{version}-py3-none-any.whl"
    files = {path.relative_to(PLACE).as_posix(): path.read_bytes() for path in MODULES}
    files[f"{folder}/METADATA"], files[f"{folder}/WHEEL"] = metadata().encode(), WHEEL.encode()
    record = "".join(record_of(*file) for file in files.items()) + f"{folder}/RECORD,,\n"
    files[f"{folder}/RECORD"] = record.encode()
    with zipfile.ZipFile(pathlib.Path(wheel_directory) / name, "w", zipfile.ZIP_DEFLATED) as wheel:
        for path, content in files.items():
            entry = zipfile.ZipInfo(path, EPOCH)
            entry.compress_type, entry.external_attr = zipfile.ZIP_DEFLATED, 0o100644 << 16
            wheel.writestr(entry, content)
    return name


def build_sdist(sdist_directory, config_settings=None):
    folder = f"mqserve-{described()['version']}"
    files = {path.relative_to(PLACE).as_posix(): path.read_bytes() for path in SOURCES}
    files["PKG-INFO"] = metadata().encode()
    with tarfile.open(pathlib.Path(sdist_directory) / f"{folder}.tar.gz", "w:gz", format=tarfile.PAX_FORMAT) as archive:
        for path, content in files.items():
            entry = tarfile.TarInfo(f"{folder}/{path}")
            entry.size, entry.mode = len(content), 0o644
            archive.addfile(entry, io.BytesIO(content))
    return f"{folder}.tar.gz"
