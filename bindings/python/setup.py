"""Builds and installs the package. Its extension module `galliumtoad._library` has the functions of
`galliumtoad.h`, each with its NULL checks, linked with the archive for this processor. A second
one, `galliumtoad._operation`, has the loop of an operation, with what it calls of the archive."""

import os
import platform
import re
from pathlib import Path

import cffi
from setuptools import Extension, setup
from setuptools.command.sdist import sdist

HERE = Path(__file__).resolve().parent
# A source distribution contains copies of these files. In the repository they are one level up.
COPY = "native"
BINDINGS = HERE / COPY if (HERE / COPY).is_dir() else HERE.parent
HEADER = BINDINGS / "c" / "include" / "galliumtoad.h"
TEXT = HEADER.read_text(encoding="utf-8")
VERSION = ".".join(re.findall(r"^#define GT_VERSION_(?:MAJOR|MINOR|PATCH) (\d+)$", TEXT, re.M))


def declarations():
    """The types, numbers and functions of the header, in the form that cffi reads."""
    text = re.sub(r"/\*.*?\*/", "", TEXT, flags=re.DOTALL)
    numbers = re.findall(r"^#define (GT_[A-Z_]+) (?:\d|\(GT_)", text, re.M)
    text = re.sub(r"\bGT_(MUST_CHECK|FUNCTION|AT_8_)\b", "", text)
    text = re.sub(r'(?m)^#.*$|extern "C" \{|\bstatic inline\b', "", text)
    text = re.sub(r"\) \{\n.*?\n\}", ");", text, flags=re.DOTALL)  # a function's body
    items = re.findall(r"[^;{}]*(?:\{[^{}]*\}[^;{}]*)?;", text)
    public = [it.strip() for it in items if not re.search(r"\bgalliumtoad_|_\(", it)]
    return "\n".join([f"#define {name} ..." for name in numbers] + public)


def processor():
    """The processor to build for: `wheels` names another one."""
    return os.environ.get("GALLIUMTOAD_PROCESSOR", platform.machine())


def linked():
    """What an extension module is built with: the archive, and the functions for memory."""
    here = f"{platform.architecture()[0]} {platform.system()}, libc {platform.libc_ver()[0] or '?'}"
    archive = BINDINGS / "lib" / f"{processor()}-linux-gnu" / "libcard_c.a"
    if here != "64bit Linux, libc glibc" or not archive.is_file():
        raise SystemExit("galliumtoad: needs 64bit Linux, libc glibc, on aarch64 or x86_64; this is"
                         f" {here}, on {processor()}")
    there = archive.read_text("latin-1")
    if lacks := [it for it in re.findall(r"\bgalliumtoad_\w+(?=\()", TEXT) if it not in there]:
        raise SystemExit(f"galliumtoad: {archive} is not that of the header: no {lacks[0]}")
    heap = os.path.relpath(BINDINGS / "c" / "src" / "heap.c", HERE)
    return {"sources": [heap], "extra_objects": [str(archive)],
            "include_dirs": [str(HEADER.parent)]}


def builder():
    """The extension module `_library`, for cffi's hook in setuptools."""
    made = cffi.FFI()
    made.cdef(declarations())
    made.set_source("galliumtoad._library", '#include "galliumtoad.h"\n', **linked())
    return made


def operation():
    """The extension module `_operation`. The linker leaves out what it does not use."""
    parts = linked()
    parts["sources"].append("src/galliumtoad/_operation.c")
    return Extension("galliumtoad._operation", **parts, py_limited_api=True,
                     extra_link_args=["-Wl,--exclude-libs,ALL", "-Wl,--gc-sections"])


class SourceDistribution(sdist):
    """Copies the sources of the build into the distribution."""

    def make_release_tree(self, base_dir, files):
        super().make_release_tree(base_dir, files)
        for part in ("c/include", "c/src", "lib"):
            self.copy_tree(str(BINDINGS / part), f"{base_dir}/{COPY}/{part}")


# The hook reads this file, too, under another name.
if __name__ == "__main__":
    made_from = {"cffi_modules": ["setup.py:builder"], "ext_modules": [operation()],
                 "cmdclass": {"sdist": SourceDistribution}}
    setup(version=VERSION, options={"bdist_wheel": {"py_limited_api": "cp39"}}, **made_from)
