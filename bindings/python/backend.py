"""Makes the wheel of this package (PEP 517, and PEP 660 for one that may be edited), with the standard library alone.

The package is files of Python and nothing is compiled, so a wheel is these files and three that tell of them."""

import base64
import hashlib
import io
import os
import re
import tarfile
import zipfile

HERE = os.path.dirname(os.path.abspath(__file__))
PACKAGE = os.path.join(HERE, "sporedrift")


def read(name):
    with open(os.path.join(HERE, name), encoding="utf-8") as file:
        return file.read()


def setting(name):
    """A text of pyproject.toml; Python 3.9 has no reader of that form."""
    return re.search(rf'(?m)^{name} = "([^"]*)"$', read("pyproject.toml")).group(1)


def named():
    return f"{setting('name')}-{setting('version')}"


def metadata():
    lines = [
        "Metadata-Version: 2.1",
        f"Name: {setting('name')}",
        f"Version: {setting('version')}",
        f"Summary: {setting('description')}",
        "License: MIT",
        "Classifier: License :: OSI Approved :: MIT License",
        "Classifier: Operating System :: POSIX :: Linux",
        "Classifier: Typing :: Typed",
        f"Requires-Python: {setting('requires-python')}",
        "Provides-Extra: image",
        'Requires-Dist: Pillow ; extra == "image"',
        "Description-Content-Type: text/markdown",
    ]
    return "\n".join(lines) + "\n\n" + read(setting("readme"))


def sources():
    """The package's files, as (place in a wheel, contents)."""
    for name in sorted(os.listdir(PACKAGE)):
        if name.endswith(".py") or name == "py.typed":
            with open(os.path.join(PACKAGE, name), "rb") as file:
                yield f"sporedrift/{name}", file.read()


def write_wheel(folder, files):
    """A wheel of these files, with those that tell of them. Gives its name."""
    about = f"{named()}.dist-info"
    tag = "py3-none-any"
    kind = f"Wheel-Version: 1.0\nGenerator: sporedrift\nRoot-Is-Purelib: true\nTag: {tag}\n"
    files = [*files, (f"{about}/METADATA", metadata().encode()), (f"{about}/WHEEL", kind.encode())]
    record = ""
    name = f"{named()}-{tag}.whl"
    with zipfile.ZipFile(os.path.join(folder, name), "w", zipfile.ZIP_DEFLATED) as wheel:
        for place, contents in files:
            sum = base64.urlsafe_b64encode(hashlib.sha256(contents).digest()).rstrip(b"=").decode()
            record += f"{place},sha256={sum},{len(contents)}\n"
            wheel.writestr(zipfile.ZipInfo(place, (2026, 1, 1, 0, 0, 0)), contents)
        record += f"{about}/RECORD,,\n"
        wheel.writestr(zipfile.ZipInfo(f"{about}/RECORD", (2026, 1, 1, 0, 0, 0)), record)
    return name


def build_wheel(wheel_directory, config_settings=None, metadata_directory=None):
    return write_wheel(wheel_directory, sources())


def build_editable(wheel_directory, config_settings=None, metadata_directory=None):
    return write_wheel(wheel_directory, [("sporedrift.pth", (HERE + "\n").encode())])


def build_sdist(sdist_directory, config_settings=None):
    name = f"{named()}.tar.gz"
    with tarfile.open(os.path.join(sdist_directory, name), "w:gz") as archive:
        for file in ("pyproject.toml", "backend.py", "README.md", *(place for place, _ in sources())):
            archive.add(os.path.join(HERE, file), f"{named()}/{file}")
        about = tarfile.TarInfo(f"{named()}/PKG-INFO")
        about.size = len(metadata().encode())
        archive.addfile(about, io.BytesIO(metadata().encode()))
    return name
