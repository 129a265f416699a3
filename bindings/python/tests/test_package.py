"""Tests what is around the calls: the version, the programs, what pip reads, and asyncio."""

import asyncio
import importlib.util
import json
import platform
import re
import shutil
import subprocess
import sys
from pathlib import Path
from types import SimpleNamespace

import galliumtoad
import pytest
from galliumtoad import CallError, Get, Select
from galliumtoad.__main__ import PROGRAMS, main
from room import with_standin

TOP = Path(__file__).resolve().parent.parent
EXAMPLE = TOP / "examples" / "over_asyncio.py"
HEADER = TOP.parent / "c" / "include" / "galliumtoad.h"
AID = bytes.fromhex("A0000000031010")


def version():
    """The version of the header for C."""
    return ".".join(re.findall(r"#define GT_VERSION_[A-Z]+ (\d+)$", HEADER.read_text(), re.M))


def python(*words, **more):
    """Runs Python with the package and the stand-in for pyscard."""
    how = {"capture_output": True, "text": True, "env": with_standin()}
    return subprocess.run([sys.executable, *words], **how, **more)


def test_the_version_is_the_header_s():
    assert re.fullmatch(r"\d+\.\d+\.\d+", version()) and galliumtoad.__version__ == version()
    done = python("-m", "galliumtoad", "--version")
    assert (done.returncode, done.stdout) == (0, f"galliumtoad {version()}\n")


def test_the_help_lists_each_program():
    """Every public module with a `main` is one of them."""
    folder = Path(galliumtoad.__file__).parent
    files = [it for it in folder.rglob("*.py") if "def main(" in it.read_text()]
    modules = {it.relative_to(folder).parts[0].removesuffix(".py") for it in files}
    assert set(PROGRAMS) == {it for it in modules if it[0] != "_"} and "batch" in PROGRAMS
    for words in ([], ["--help"]):
        done = python("-m", "galliumtoad", *words)
        assert (done.returncode, done.stderr) == (0, "")
        assert all(f"{it}: {PROGRAMS[it][:20]}" in done.stdout for it in PROGRAMS)


@pytest.mark.parametrize("words", [["nonsense"], ["--nonsense"], ["Batch"]])
def test_other_words_are_refused(words):
    done = python("-m", "galliumtoad", *words)
    assert (done.returncode, done.stdout) == (2, "") and "\ngalliumtoad: error: " in done.stderr


@pytest.mark.parametrize("program", ["__main__", *PROGRAMS])
@pytest.mark.parametrize("words", [["--only=--"], ["--faults="], ["--report", ""]])
def test_no_option_has_an_empty_value(capsys, program, words):
    """As that of a variable that is not set. After -- a word may be empty."""
    program = importlib.import_module(f"galliumtoad.{program}").main
    assert program(["--help", *words]) == 2
    assert capsys.readouterr() == ("", f"an empty value: '{words[-1]}'\n")
    with pytest.raises(SystemExit, match="^0$"):
        program(["--help", "--", *words])


@pytest.mark.parametrize("words", [[], ["--help"], ["--version", "x"], ["a", "-b"]])
@pytest.mark.parametrize("status", [0, 1, 2])
def test_a_program_gets_its_words_and_gives_its_status(monkeypatch, words, status):
    said = []
    program = SimpleNamespace(main=lambda words: said.append(words) or status)
    monkeypatch.setitem(sys.modules, "galliumtoad.batch", program)
    monkeypatch.setattr(sys, "argv", ["galliumtoad", "batch", *words])
    assert main() == main(["batch", *words]) == status
    assert said == [words, words]


def test_a_program_is_that_of_its_own_module():
    of_module, of_package = (
        python("-m", *words, "--help")
        for words in (["galliumtoad.batch"], ["galliumtoad", "batch"])
    )
    assert of_module.stdout == of_package.stdout and "--journal" in of_module.stdout


def test_what_pip_reads():
    """One wheel serves each Python from `requires-python` on."""
    program = (
        "import json; from setuptools import Distribution; from distutils.core import run_setup;"
        "made = run_setup('setup.py', stop_after='commandline');"
        "options = made.get_option_dict('bdist_wheel');"
        "print(json.dumps([made.get_version(), options, made.entry_points,"
        " made.extras_require, [it.py_limited_api for it in made.ext_modules]]))"
    )
    done = python("-W", "ignore", "-c", program, cwd=TOP)
    found, options, scripts, extras, limited = json.loads(done.stdout.splitlines()[-1])
    [least] = re.findall(r'requires-python = ">=3\.(\d+)"', (TOP / "pyproject.toml").read_text())
    assert found == version() and limited == [True, True]
    assert options["py_limited_api"][1] == f"cp3{least}"
    assert extras == {"pcsc": ["pyscard"], "postgresql": ["psycopg2"]}
    named = dict(it.split(" = ") for it in scripts["console_scripts"])
    assert named["galliumtoad"] == "galliumtoad.__main__:main"
    assert {it: named[f"galliumtoad-{it}"] for it in PROGRAMS} == {
        it: f"galliumtoad.{it}:main" for it in PROGRAMS
    }


def copied(folder):
    """Copies what a build reads, without the archive."""
    for name in ("python/setup.py", "c/include/galliumtoad.h"):
        (folder / name).parent.mkdir(parents=True)
        shutil.copy(TOP.parent / name, folder / name)


SYSTEMS = {
    "platform.system = lambda: 'Darwin'": "64bit Darwin, libc glibc, on x86_64",
    "platform.system = lambda: 'Windows'": "64bit Windows, libc glibc, on x86_64",
    "platform.libc_ver = lambda: ('', '')": "64bit Linux, libc ?, on x86_64",
    "platform.libc_ver = lambda: ('musl', '1.2.5')": "64bit Linux, libc musl, on x86_64",
    "platform.architecture = lambda: ('32bit', 'ELF')": "32bit Linux, libc glibc, on x86_64",
    "platform.machine = lambda: 'riscv64'": "64bit Linux, libc glibc, on riscv64",
    "platform.machine = lambda: '..'": "64bit Linux, libc glibc, on ..",
}


@pytest.mark.parametrize("system", SYSTEMS)
def test_a_system_without_an_archive_is_refused(tmp_path, system):
    """In one line, before anything is compiled."""
    copied(tmp_path)
    shutil.copytree(TOP.parent / "lib", tmp_path / "lib")
    made = " or ".join(sorted(it.name.split("-")[0] for it in tmp_path.glob("lib/*-gnu")))
    here = "platform.libc_ver = lambda: ('glibc', '2.31'); platform.machine = lambda: 'x86_64'"
    program = "import platform, setup; {}; setup.builder()"
    done = python("-c", program.format(here), cwd=tmp_path / "python")
    assert (done.returncode, done.stderr) == (0, "")
    done = python("-c", program.format(f"{here}; {system}"), cwd=tmp_path / "python")
    assert (done.returncode, done.stderr) == (
        1,
        f"galliumtoad: needs 64bit Linux, libc glibc, on {made}; this is {SYSTEMS[system]}\n",
    )


def test_an_archive_of_another_header_is_refused(tmp_path):
    """The build says so, and not the first import."""
    copied(tmp_path)
    folder = f"{platform.machine()}-linux-gnu"
    archive = (TOP.parent / "lib" / folder / "libcard_c.a").read_bytes()
    (tmp_path / "lib" / folder).mkdir(parents=True)
    older = archive.replace(b"_card_own", b"_card_one")
    for changed, said in ((archive, ""), (older, "_card_own")):
        (tmp_path / "lib" / folder / "libcard_c.a").write_bytes(changed)
        done = python("-c", "import setup; setup.builder()", cwd=tmp_path / "python")
        assert (done.returncode, done.stderr.strip()[-9:]) == (bool(said), said)


def test_asyncio():
    done = python(str(EXAMPLE))
    assert done.stdout.splitlines() == ["too late", "5f20034a4f45"]


@pytest.mark.parametrize(
    ("fault", "kind"),
    [("cancel", asyncio.CancelledError), ("raise", OSError), ("cut", galliumtoad.TransportError)],
)
def test_an_operation_that_is_broken_off_leaves_nothing(monkeypatch, fault, kind):
    spec = importlib.util.spec_from_file_location("over_asyncio", EXAMPLE)
    it = importlib.util.module_from_spec(spec)
    spec.loader.exec_module(it)

    async def broken():
        sent = asyncio.Event()

        async def failing(tpdu, _):
            it.card.tpdu(tpdu)
            sent.set()
            await asyncio.sleep(60 if fault == "cancel" else 0)
            if fault == "raise":
                raise OSError("pulled")
            return b""

        await it.run(Select(AID), 0)
        with monkeypatch.context() as patch:
            patch.setattr(it, "transmit", failing)
            task = asyncio.ensure_future(it.run(Get(0x5F20), 0))
            await sent.wait()
            if fault == "cancel":
                with pytest.raises(CallError, match="state"):
                    await it.run(Select(AID), 0)
                task.cancel()
            [error] = await asyncio.gather(task, return_exceptions=True)
        assert it.terminal.tpdu() is None and it.card.selected is None
        answers = [await it.run(each, 0) for each in (Select(AID), Get(0x5F20))]
        return type(error), answers[1].object(0x5F20).value

    assert asyncio.run(broken()) == (kind, b"JOE")
