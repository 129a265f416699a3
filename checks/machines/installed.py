"""The library installed for a machine, as a user does: make install, then a program by CMake, in C
and in C++17."""

import os
import subprocess
from pathlib import Path

C = Path(__file__).resolve().parents[2] / "bindings/c"
PROJECT = """\
cmake_minimum_required(VERSION 3.13)
project(linked C)
find_package(galliumtoad 0.3 REQUIRED)
add_executable(linked main.c other.o {sources})
target_compile_options(linked PRIVATE -Wall -Wextra -Werror)
target_link_libraries(linked galliumtoad::galliumtoad {words})
"""
# A program in both languages. It is 0 if a card of both answers.
MAIN = """\
#include <galliumtoad.h>
int other(gt_card *card);
int {main}(void);
int {main}(void)
{{
    gt_card card = GT_INIT;
    int32_t code = gt_card_new(&card);
    return code != GT_OK || other(&card);
}}
"""
OTHER = """\
#include <galliumtoad.h>
static_assert(sizeof(gt_atr) == 96 && sizeof(gt_object) == 40, "the layout of 64 bits");
extern "C" int other(gt_card *card);
int other(gt_card *card)
{
    const int32_t code = gt_card_finish(card);
    gt_card_free(card);
    return code;
}
"""


def run(*words, **how):
    subprocess.run([*map(str, words)], check=True, capture_output=True, text=True, **how)


def linked(target, machines, room, is_bare, sources=(), words=""):
    """Installs the library, and links a program. Returns it."""
    place, project = room / "installed", room / "project"
    project.mkdir(parents=True)
    run("make", "-s", "-C", C, "install", f"CC={target.compiler}", f"TARGET={target.name}",
        f"BUILD={room}/build", f"PREFIX={place}", f"LIBDIR={place}/lib", "HAS_PCSC=",
        "WERROR=-Werror",
        f"RUN={target.runner}", f"ARCHIVE={machines}/{target.name}/libcard_c.a")
    (project / "main.c").write_text(MAIN.format(main="board_main" if is_bare else "main"))
    (project / "other.cc").write_text(OTHER)
    (project / "CMakeLists.txt").write_text(
        PROJECT.format(sources=" ".join(map(str, sources)), words=words))
    run("clang++", f"--target={target.triple}", *target.flags.replace("-meabi gnu", "").split(),
        "-std=c++17", "-ffreestanding", "-fno-exceptions", "-Wall", "-Wextra", "-Werror",
        f"-I{place}/include", "-c", project / "other.cc", "-o", project / "other.o")
    compiler, *flags = target.compiler.split()
    run("cmake", "-S", project, "-B", project / "build", f"-DCMAKE_PREFIX_PATH={place}",
        "-DCMAKE_SYSTEM_NAME=" + ("Generic" if is_bare else "Linux"),
        "-DCMAKE_TRY_COMPILE_TARGET_TYPE=STATIC_LIBRARY", f"-DCMAKE_C_COMPILER={compiler}",
        f"-DCMAKE_C_FLAGS={' '.join(flags)}", env={**os.environ, "CC": compiler})
    run("cmake", "--build", project / "build")
    return project / "build/linked"
