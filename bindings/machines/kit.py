"""The toolchain's compiler: makes the module's text, and objects and archives of it."""

import lzma
import os
import shutil
import subprocess
import tempfile
from pathlib import Path

import rewriting

HERE = Path(__file__).resolve().parent
MODULE = HERE / "card_c.bc.xz"
PROVED = HERE.parent / "lib/x86_64-linux-gnu/libcard_c.a"
HEADER = HERE.parent / "c/include/galliumtoad.h"
# What the toolchain gives its clang for the proved archive. The module also names the processor
# x86-64-v2, and `rewriting` leaves that out.
OF_PROVED = (
    "--target=x86_64-unknown-linux-gnu -march=x86-64 -mllvm -no-trap-after-noreturn"
    " -ffunction-sections -fdata-sections -mllvm -trap-unreachable -mllvm -no-x86-call-frame-opt"
    " -mllvm -disable-machine-licm -mllvm -disable-postra-machine-licm"
    " -mllvm -sink-common-insts=false --no-default-config -no-canonical-prefixes"
    " -fintegrated-cc1 -fno-crash-diagnostics -Werror -c -x ir -fPIC -O3").split()
OF_PROVED_AGAIN = [*OF_PROVED, "-march=x86-64-v2", "-Wno-override-module"]
OF_TARGET = "--no-default-config -ffunction-sections -fdata-sections -Wno-override-module" \
    " -Werror -c -x ir -Os".split()


class Fault(Exception):
    """Why an archive can't be made, in a sentence."""


class Kit:
    """The compiler in the folder `toolchain` of a kit, by default that of `rt`."""

    def __init__(self, folder=None):
        rt = shutil.which("rt")
        if not (folder or rt):
            raise Fault("no rt on the path: put the folder bin of the kit that README names on it")
        folder = Path(folder) if folder else Path(os.path.realpath(rt)).parent.parent
        self.tools = folder / "toolchain/bin"
        if not os.access(self.tools / "clang", os.X_OK):
            raise Fault(f"no toolchain/bin/clang in {folder}: that is no kit")

    def run(self, tool, *words, **how):
        """What a tool prints."""
        ran = subprocess.run([self.tools / tool, *map(str, words)], capture_output=True, **how)
        if ran.returncode:
            said = ran.stderr.decode(errors="replace").strip() or f"status {ran.returncode}"
            raise Fault(f"{tool} of {self.tools} fails: {said}")
        return ran.stdout

    def text(self, module):
        """The module as text."""
        return self.run("clang", "-S", "-emit-llvm", "-O0", "-Xclang", "-disable-llvm-passes",
                        "-x", "ir", module, "-o", "-").decode()

    def compiled(self, module, words):
        """The object that clang makes of a module."""
        with tempfile.TemporaryDirectory() as room:
            self.run("clang", *words, module, "-o", f"{room}/card_c.o")
            return Path(room, "card_c.o").read_bytes()

    def archive(self, text, target):
        """The archive for a target, of the module's text."""
        try:
            written = rewriting.rewritten(text, target.bits, HEADER.read_text(encoding="utf-8"),
                                          target.returned, target.triple)
        except rewriting.Unknown as fault:
            raise Fault(f"{target.name}: {fault}") from None
        with tempfile.TemporaryDirectory() as room:
            Path(room, "card_c.ll").write_text(written, encoding="utf-8")
            words = [f"--target={target.triple}", *target.flags.split(), *OF_TARGET]
            made = self.compiled(Path(room, "card_c.ll"), words)
            Path(room, "card_c.o").write_bytes(made)
            self.run("llvm-ar", "rcsD", "libcard_c.a", "card_c.o", cwd=room)
            return Path(room, "libcard_c.a").read_bytes()

    def is_proved(self, module, words=OF_PROVED):
        """Whether this makes the object of the proved archive of a module."""
        return self.compiled(module, words) == self.run("llvm-ar", "p", PROVED)


def stored_module(to):
    """Unpacks the stored module to a file."""
    Path(to).write_bytes(lzma.decompress(MODULE.read_bytes()))
