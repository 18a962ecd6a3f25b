"""Makes the wheel of the package, with nothing but Python 3.11 or later (docs/RELEASE.md):

    pip wheel --no-build-isolation --no-deps -w FOLDER package/

It holds the package, the built program for Linux on x86-64 where it was built, and what node runs of page/ and tools/node/. The
program is crates/market/out/market, or another one by --config-settings program=PATH. All times in the wheel are
SOURCE_DATE_EPOCH, or else those of 1980, so that the same files make the same bytes.
"""
import ast
import base64
import hashlib
import os
import pathlib
import posixpath
import re
import sys
import time
import tomllib
import zipfile

HERE = pathlib.Path(__file__).resolve().parent
HOME = HERE.parent
PACKAGE = "trading_networks"
PROGRAM = HOME / "crates/market/out/market"
RUN_BY_NODE = ("page/market.mjs", "tools/node/none.mjs")
READ_THERE = ("page/market.html", "page/package.json")
IMPORTED = re.compile(r'^(?:import|export)\b[^"\n]*?"(\.[^"\n]+)";$', re.M)
ZIP_BEGIN = 315_532_800  # 1980, before which a zip file has no time
PLAIN_FILE, PROGRAM_FILE = 0o100644, 0o100755


def build_wheel(wheel_directory, config_settings=None, metadata_directory=None):
    """The name of the wheel, which is written into the folder."""
    project, version = read_project()
    name = f"{PACKAGE}-{version}"
    program = pathlib.Path((config_settings or {}).get("program") or PROGRAM)
    if not program.is_file():
        print(f"{program} isn't there: the wheel has the module for node alone", file=sys.stderr)
    files = {**package_files(), **node_files(), **({f"{PACKAGE}/program/market": program} if program.is_file() else {})}
    parts = {path: file.read_bytes() for path, file in files.items()}
    parts[f"{name}.dist-info/METADATA"] = metadata(project, version).encode()
    parts[f"{name}.dist-info/LICENCE"] = licence()
    parts[f"{name}.dist-info/WHEEL"] = b"Wheel-Version: 1.0\nGenerator: wheels\nRoot-Is-Purelib: true\nTag: py3-none-any\n"
    record = f"{name}.dist-info/RECORD"
    lines = [recorded(path, parts[path]) for path in sorted(parts)]
    parts[record] = "".join(f"{line}\n" for line in (*lines, f"{record},,")).encode()
    wheel = f"{name}-py3-none-any.whl"
    write_zip(pathlib.Path(wheel_directory) / wheel, parts)
    return wheel


def build_sdist(sdist_directory, config_settings=None):
    """There is none: the sources of the program are the repository."""
    raise NotImplementedError("the package is made in its repository, as a wheel alone")


def read_project():
    """The project's table, and the version, which the package says."""
    table = tomllib.loads((HERE / "pyproject.toml").read_text(encoding="utf-8"))["project"]
    said = re.search(r'^__version__ = "([\d.]+)"$', (HERE / PACKAGE / "__init__.py").read_text(encoding="utf-8"), re.M)
    return table, said[1]


def package_files():
    """The files of the package, by their paths in the wheel."""
    folder = HERE / PACKAGE
    return {f"{PACKAGE}/{file.name}": file for file in folder.iterdir() if file.suffix == ".py" or file.name == "py.typed"}


def node_files():
    """What node runs for the package, by its paths in the wheel."""
    return {f"{PACKAGE}/node/{path}": HOME / path for path in with_imports(RUN_BY_NODE)}


def with_imports(run):
    """Modules that node runs, with all that they import and the page, by their paths in the repository."""
    waiting, found = list(run), dict.fromkeys(READ_THERE)
    while waiting:
        path = waiting.pop()
        found[path] = None
        named = IMPORTED.findall((HOME / path).read_text(encoding="utf-8"))
        paths = {posixpath.normpath(posixpath.join(posixpath.dirname(path), other)) for other in named}
        waiting += sorted(paths.difference(found))
    return list(found)


def licence():
    """The licence, or that there is none yet."""
    file = HOME / "LICENCE"
    if file.is_file():
        return file.read_bytes()
    return b"""No licence has been given yet.

This is not for handing on: its owner has not said under which terms it may be used.
"""


def metadata(project, version):
    """What the package says of itself, and at last its own words."""
    words = ast.get_docstring(ast.parse((HERE / PACKAGE / "__init__.py").read_text(encoding="utf-8")))
    lines = ["Metadata-Version: 2.1", f"Name: {project['name']}", f"Version: {version}", f"Summary: {project['description']}",
             f"Requires-Python: {project['requires-python']}"]
    for extra, needed in project["optional-dependencies"].items():
        lines += [f"Provides-Extra: {extra}", *(f'Requires-Dist: {each}; extra == "{extra}"' for each in needed)]
    return "\n".join([*lines, "Description-Content-Type: text/plain", "", words, ""])


def recorded(path, data):
    """The line of a file in the record."""
    digest = base64.urlsafe_b64encode(hashlib.sha256(data).digest()).rstrip(b"=").decode()
    return f"{path},sha256={digest},{len(data)}"


def write_zip(file, parts):
    """A zip file of parts in the order of their names, the record last."""
    begun = max(ZIP_BEGIN, int(os.environ.get("SOURCE_DATE_EPOCH", ZIP_BEGIN)))
    with zipfile.ZipFile(file, "w") as archive:
        for path in sorted(parts, key=lambda path: (path.endswith("/RECORD"), path)):
            entry = zipfile.ZipInfo(path, time.gmtime(begun)[:6])
            entry.compress_type, entry.create_system = zipfile.ZIP_DEFLATED, 3
            entry.external_attr = (PROGRAM_FILE if path.endswith("/program/market") else PLAIN_FILE) << 16
            archive.writestr(entry, parts[path], compresslevel=9)
