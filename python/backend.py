"""Builds the package: the hooks that `pip wheel python` and `python -m build python` call. It needs no other package.

The wheel contains the library: the one that TOML_SPAN_LIBRARY names, the one in the source distribution, or the one
that scripts/c_library.sh of the repository makes. The tag of the wheel says which glibc the library needs, according to
readelf (of binutils).
"""

import base64
import gzip
import hashlib
import io
import os
import re
import subprocess
import sys
import tarfile
import zipfile

HERE = os.path.dirname(os.path.abspath(__file__))
PACKAGE = os.path.join(HERE, "src", "toml_span")
LIBRARY = "libtoml_span.so.0"
# the date of each file in an archive, so that the same sources make the same archive
MOMENT = (1980, 1, 1, 0, 0, 0)


def library():
    """Returns the path of the library."""
    script = os.path.join(HERE, "..", "scripts", "c_library.sh")
    path = os.environ.get("TOML_SPAN_LIBRARY") or os.path.join(PACKAGE, LIBRARY)
    if not os.path.exists(path) and os.path.exists(script):
        subprocess.run(["bash", script], check=True, stdout=sys.stderr)
        path = os.path.join(HERE, "..", "out", "lib", LIBRARY)
    if not os.path.exists(path):
        sys.exit(f"there is no {path}: build it with scripts/c_library.sh, or set TOML_SPAN_LIBRARY to its path")
    return path


def platform():
    """Returns the platform tag of the wheel, from the versions of the glibc symbols that the library needs."""
    said = subprocess.run(["readelf", "-W", "-d", "-V", library()], check=True, stdout=subprocess.PIPE).stdout.decode()
    needed = re.findall(r"\(NEEDED\).*\[(.*)\]", said)
    if needed != ["libc.so.6"]:
        sys.exit(f"the library needs {needed}, which no wheel may expect")
    minor = max(int(version) for version in re.findall(r"\bGLIBC_2\.(\d+)", said))
    return "manylinux_2_17_x86_64.manylinux2014_x86_64" if minor <= 17 else f"manylinux_2_{minor}_x86_64"


def read(*names):
    with open(os.path.join(HERE, *names), "rb") as file:
        return file.read()


def field(name):
    """Returns the string with this name in pyproject.toml."""
    return re.search(rf'^{name} = "(.*)"$', read("pyproject.toml").decode(), re.M)[1]


def version():
    return re.search(r'^__version__ = "(.*)"$', read("src", "toml_span", "__init__.py").decode(), re.M)[1]


def metadata():
    lines = ["Metadata-Version: 2.4", f"Name: {field('name')}", f"Version: {version()}"]
    lines += [f"Summary: {field('description')}", f"Requires-Python: {field('requires-python')}"]
    lines += [f"License-Expression: {field('license')}", "License-File: LICENSE-APACHE", "License-File: LICENSE-MIT"]
    return "\n".join(lines).encode() + b"\n"


def modules():
    """Returns the package's files, each with its name in a wheel."""
    names = sorted(name for name in os.listdir(PACKAGE) if name.endswith(".py") or name == "py.typed")
    return [(f"toml_span/{name}", read("src", "toml_span", name)) for name in names]


def build_wheel(wheel_directory, config_settings=None, metadata_directory=None):
    info, tags = f"toml_span-{version()}.dist-info", f"py3-none-{platform()}"
    with open(library(), "rb") as file:
        members = [*modules(), (f"toml_span/{LIBRARY}", file.read())]
    each = "".join(f"Tag: py3-none-{tag}\n" for tag in platform().split("."))
    members += [
        (f"{info}/METADATA", metadata()),
        (f"{info}/WHEEL", f"Wheel-Version: 1.0\nGenerator: toml_span\nRoot-Is-Purelib: false\n{each}".encode()),
        *((f"{info}/licenses/{name}", read(name)) for name in ("LICENSE-APACHE", "LICENSE-MIT")),
    ]
    record = ""
    for name, data in members:
        digest = base64.urlsafe_b64encode(hashlib.sha256(data).digest()).rstrip(b"=").decode()
        record += f"{name},sha256={digest},{len(data)}\n"
    members.append((f"{info}/RECORD", f"{record}{info}/RECORD,,\n".encode()))
    wheel = f"toml_span-{version()}-{tags}.whl"
    with zipfile.ZipFile(os.path.join(wheel_directory, wheel), "w", zipfile.ZIP_DEFLATED) as archive:
        for name, data in members:
            member = zipfile.ZipInfo(name, MOMENT)
            member.external_attr = (0o100755 if name.endswith(LIBRARY) else 0o100644) << 16
            archive.writestr(member, data, zipfile.ZIP_DEFLATED)
    return wheel


def build_sdist(sdist_directory, config_settings=None):
    """The source distribution has the library too, since only Rattle's toolchain can build it."""
    folder = f"toml_span-{version()}"
    members = [("PKG-INFO", metadata())]
    members += [(name, read(name)) for name in ("LICENSE-APACHE", "LICENSE-MIT", "backend.py", "pyproject.toml")]
    with open(library(), "rb") as file:
        members += [(f"src/{name}", data) for name, data in [*modules(), (f"toml_span/{LIBRARY}", file.read())]]
    with gzip.GzipFile(os.path.join(sdist_directory, f"{folder}.tar.gz"), "wb", mtime=0) as file:
        with tarfile.open(fileobj=file, mode="w") as archive:
            for name, data in members:
                member = tarfile.TarInfo(f"{folder}/{name}")
                member.size = len(data)
                archive.addfile(member, io.BytesIO(data))
    return f"{folder}.tar.gz"
