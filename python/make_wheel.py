#!/usr/bin/env python3
"""Makes the wheel of the Python package, with the shared object in it: python/make_wheel.py LIBRARY FOLDER.

It needs no network and no other package. `pip install FOLDER/linnetshelf-*.whl` installs it. `pip install` of this folder
makes it too, with the library in LINNETSHELF_LIBRARY or else out/c, which `c/run build` builds.
"""
import base64
import hashlib
import os
import pathlib
import re
import sys
import zipfile

HERE = pathlib.Path(__file__).resolve().parent
TAG = "py3-none-linux_x86_64"


def field(name):
    """Returns a field of pyproject.toml."""
    return re.search(rf'^{name} = "(.*)"$', (HERE / "pyproject.toml").read_text(encoding="utf-8"), re.M)[1]


def contents(library):
    """Returns the files of the wheel with their bytes, all but the list of them."""
    version, sources = field("version"), sorted((HERE / "linnetshelf").glob("*.py"))
    files = {f"linnetshelf/{it.name}": it.read_bytes() for it in [*sources, HERE / "linnetshelf" / "py.typed"]}
    files["linnetshelf/liblinnetshelf.so"] = pathlib.Path(library).read_bytes()
    about = f"Metadata-Version: 2.1\nName: linnetshelf\nVersion: {version}\nSummary: {field('description')}\n"
    info = f"linnetshelf-{version}.dist-info"
    files[f"{info}/METADATA"] = f"{about}Requires-Python: {field('requires-python')}\n".encode()
    files[f"{info}/WHEEL"] = f"Wheel-Version: 1.0\nGenerator: make_wheel.py\nRoot-Is-Purelib: false\nTag: {TAG}\n".encode()
    return info, files


def build_wheel(wheel_directory, config_settings=None, metadata_directory=None):
    """Makes the wheel for pip, and returns its name."""
    library = pathlib.Path(os.environ.get("LINNETSHELF_LIBRARY") or HERE.parent / "out" / "c" / "liblinnetshelf.so")
    if not library.is_file():
        raise RuntimeError(f"{library} is not there: build the library first, by c/run build, or set LINNETSHELF_LIBRARY")
    return make(library, wheel_directory).name


def make(library, folder):
    """Makes the wheel in a folder, and returns its path."""
    info, files = contents(library)
    lines = []
    for name, data in files.items():
        digest = base64.urlsafe_b64encode(hashlib.sha256(data).digest()).rstrip(b"=").decode()
        lines.append(f"{name},sha256={digest},{len(data)}\n")
    files[f"{info}/RECORD"] = f"{''.join(lines)}{info}/RECORD,,\n".encode()
    made = pathlib.Path(folder) / f"linnetshelf-{field('version')}-{TAG}.whl"
    with zipfile.ZipFile(made, "w", zipfile.ZIP_DEFLATED) as wheel:
        for name, data in files.items():
            # The same files give the same wheel.
            wheel.writestr(zipfile.ZipInfo(name, (1980, 1, 1, 0, 0, 0)), data, zipfile.ZIP_DEFLATED)
    return made


def main():
    if len(sys.argv) != 3:
        sys.exit(__doc__.strip())
    print(make(*sys.argv[1:]))


if __name__ == "__main__":
    main()
