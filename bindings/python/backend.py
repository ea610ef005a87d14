"""Makes a wheel of the package and the library, as PEP 517 describes: pip wheel bindings/python.

The library is that of the folder that the environment's CIRCLE_LIBRARIES names, or of ../c/out,
where bindings/c/build leaves it. If the folder has libraries for further processors, in
glibc-hwcaps, the wheel has them too, and the system's loader chooses one: libcircle.so in the wheel
is then an empty library, which cc links, and depends on the chosen one.
"""

import base64
import hashlib
import os
import pathlib
import re
import subprocess
import tempfile
import zipfile

HERE = pathlib.Path(__file__).resolve().parent
LICENSES = ("LICENSE-APACHE", "LICENSE-MIT")
# The time of each file in the wheel, so that the same files make the same wheel.
TIME = (2026, 1, 1, 0, 0, 0)
# The least version of glibc that the tags of wheels have.
LEAST_GLIBC = 17
SUMMARY = "Circle STARK polynomial commitments, proved: the verifier and the prover"


class UnsupportedOperation(Exception):
    """What this backend doesn't do. PEP 517 has the name."""


def version():
    text = (HERE / "circle" / "__init__.py").read_text(encoding="utf-8")
    return re.search(r'^__version__ = "(.+)"$', text, re.M)[1]


def libraries():
    """The folder that has the library."""
    named = os.environ.get("CIRCLE_LIBRARIES")
    folder = HERE.parent / "c" / "out" if named is None else pathlib.Path(named)
    if not folder.is_absolute():
        raise OSError(f"CIRCLE_LIBRARIES must be an absolute path: {named!r}")
    if not (folder / soname()).is_file():
        told = "bindings/c/build makes it" if named is None else f"CIRCLE_LIBRARIES names {named!r}"
        raise OSError(f"there is no {soname()} in {folder}: {told}")
    return folder


def licenses():
    """The files of the licenses: those of the repository, and those of others' code beside the
    library or above it, where they are."""
    others = (folder / "THIRD-PARTY" for folder in (libraries(), libraries().parent))
    return [HERE.parent.parent / name for name in LICENSES] + [it for it in others if it.is_file()]


def soname():
    return f"libcircle.so.{version().split('.')[0]}"


def loader(base):
    """The bytes of an empty library that depends on the library beside it."""
    with tempfile.TemporaryDirectory() as room:
        words = ["cc", "-shared", "-nostdlib", "-o", f"{room}/libcircle.so", "-x", "c", os.devnull]
        words += ["-x", "none", "-Wl,--no-as-needed,-rpath,$ORIGIN,--enable-new-dtags", base]
        subprocess.run(words, check=True)
        return pathlib.Path(room, "libcircle.so").read_bytes()


def contents():
    """The package's files, by their names in the wheel."""
    files = {f"circle/{it.name}": it.read_bytes() for it in (HERE / "circle").glob("*.py")}
    files["circle/py.typed"] = b""
    base, others = libraries() / soname(), sorted(libraries().glob(f"glibc-hwcaps/*/{soname()}"))
    if not others:
        files["circle/lib/libcircle.so"] = base.read_bytes()
        return files
    for path in (base, *others):
        files[f"circle/lib/{path.relative_to(libraries())}"] = path.read_bytes()
    files["circle/lib/libcircle.so"] = loader(base)
    return files


def tag(files):
    """The tag of a wheel with these files, by the newest glibc that a library names."""
    found = [int(it) for file in files.values() for it in re.findall(rb"GLIBC_2\.(\d+)", file)]
    return f"py3-none-manylinux_2_{max([LEAST_GLIBC, *found])}_x86_64"


def metadata(of):
    """The files of the folder of metadata, but for the list of all files."""
    lines = ["Metadata-Version: 2.1", "Name: circle", f"Version: {version()}"]
    lines += [f"Summary: {SUMMARY}", "License: MIT OR Apache-2.0", "Requires-Python: >=3.8"]
    lines += [f"License-File: {path.name}" for path in licenses()]
    wheel = ["Wheel-Version: 1.0", f"Generator: circle {version()}", "Root-Is-Purelib: false"]
    wheel += [f"Tag: {of}"]
    files = {f"licenses/{path.name}": path.read_bytes() for path in licenses()}
    files["METADATA"] = "\n".join([*lines, ""]).encode()
    files["WHEEL"] = "\n".join([*wheel, ""]).encode()
    return files


def line_of_record(name, data):
    digest = base64.urlsafe_b64encode(hashlib.sha256(data).digest()).rstrip(b"=").decode()
    return f"{name},sha256={digest},{len(data)}\n"


def build_wheel(wheel_directory, config_settings=None, metadata_directory=None):
    """Writes the wheel into the folder, and returns its name."""
    files, folder = contents(), f"circle-{version()}.dist-info"
    of = tag(files)
    files.update({f"{folder}/{name}": data for name, data in metadata(of).items()})
    lines = [line_of_record(name, data) for name, data in sorted(files.items())]
    files[f"{folder}/RECORD"] = "".join([*lines, f"{folder}/RECORD,,\n"]).encode()
    name = f"circle-{version()}-{of}.whl"
    with zipfile.ZipFile(pathlib.Path(wheel_directory, name), "w", zipfile.ZIP_DEFLATED) as wheel:
        for path, data in files.items():
            info = zipfile.ZipInfo(path, TIME)
            info.external_attr = (0o755 if ".so" in path else 0o644) << 16
            info.compress_type = zipfile.ZIP_DEFLATED
            wheel.writestr(info, data)
    return name


def build_sdist(sdist_directory, config_settings=None):
    """The library can't be built of a source distribution: there is none."""
    raise UnsupportedOperation("there is no source distribution of the package")
