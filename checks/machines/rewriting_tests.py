"""Tests what writes the module for another machine: `rewriting`, `fronts` and `kit`. What is wanted
follows from the layout of values on 64 bits, and from C's calls on 32."""

import os
import re
import subprocess
import sys
import tempfile
import unittest
from pathlib import Path
from unittest import mock

sys.path.insert(0, str(Path(__file__).resolve().parents[2] / "bindings/machines"))
import kit  # noqa: E402
from fronts import PLACE, REGISTERS, Unknown  # noqa: E402
from rewriting import rewritten  # noqa: E402

FRONT = 'target datalayout = "e-m:e-i64:64"\ntarget triple = "x86_64-unknown-linux-gnu"\n'
# What a machine would read or place in another way, or what this has never seen.
UNKNOWN = """\
  %v = load <2 x i64>, ptr %p, align 8
  %v = load float, ptr %p, align 4
  %v = load i24, ptr %p, align 4
  %v = load { float, ptr }, ptr %p, align 8
  %v = load atomic i64, ptr %p seq_cst, align 8
  %v = load { i8, i8, ptr }, ptr %p, align 8
  %v = load { i8, { i8, ptr } }, ptr %p, align 8
  %v = load [2 x ptr], ptr %p, align 8
  store { i8, ptr } %v, ptr %p, align 8
  store <2 x i64> %v, ptr %p, align 8
  store ptr inttoptr (i64 8 to ptr), ptr %p, align 8
  %v = alloca { i8, ptr }, align 8
  %v = alloca [2 x ptr], align 8
  %v = alloca ptr, i64 %n, align 8
  %v = alloca ptr, align 16
  %v = getelementptr ptr, ptr %p, i64 1
  %v = getelementptr { i8, ptr }, ptr %p, i64 1
  %v = getelementptr i64, ptr %p, i64 1
  %v = getelementptr i8, ptr %p, i32 1
  %v = ptrtoint ptr %p to i64
  %v = inttoptr i64 %n to ptr
  %v = bitcast i64 %n to <2 x i32>
  %v = fadd double %a, %b
  %v = add <2 x i64> %a, %b
  %v = cmpxchg ptr %p, i64 0, i64 1 seq_cst seq_cst
  %v = atomicrmw add ptr %p, i64 1 seq_cst
  %v = va_arg ptr %p, i64
  fence seq_cst
  %v = call i64 %f(i64 1)
  %v = invoke i64 @f() to label %a unwind label %b
  call void @llvm.memcpy.inline.p0.p0.i64(ptr %p, ptr %q, i64 8, i1 false)
  call void @llvm.lifetime.start.p0(ptr %p)
  %v = call i64 @llvm.objectsize.i64.p0(ptr %p, i1 false, i1 true, i1 false)
  %v = call { i64, ptr } @rattle_alloc(i64 8, i64 8)
@t = internal constant { ptr, i64 } { ptr @f, i64 1 }
@t = internal constant [1 x ptr] [ptr @f]
@t = internal global [8 x i8] zeroinitializer
declare i64 @llvm.objectsize.i64.p0(ptr, i1, i1, i1)
declare void @llvm.lifetime.start.p0(ptr)
declare { i64, ptr } @rattle_alloc(i64, i64)
define internal void @f(<2 x i64> %a) {
define internal void @f(ptr byval({ i8, ptr }) %a) {
define internal double @f() {
module asm "nop"
%t = type { i8, ptr }
""".splitlines()
SAME = """\
@bytes = private unnamed_addr constant [2 x i8] c"ab", align 1
define internal noundef { i8, ptr } @"a::f"(ptr noundef %a0, i64 noundef %a1) #0 {
start:
  %r0 = alloca [16 x i8], align 8
  %r1 = load i64, ptr %r0, align 8, !noundef !1
  %r2 = getelementptr i8, ptr %r0, i64 %r1
  store i8 0, ptr %r2, align 1
  %r3 = icmp eq ptr %a0, null
  %r4 = call { i64, i1 } @llvm.uadd.with.overflow.i64(i64 %r1, i64 1)
  call void @"a::g"(ptr %r0, i64 8)
  br i1 %r3, label %bb1, label %bb2
"""


def narrow(*lines):
    """The lines for 32 bits, without what is put behind them."""
    made = rewritten(FRONT + "\n".join(lines) + "\n", 32, "")
    return made[:made.index("\ndeclare void @rattle_alloc(")].splitlines()


class Lines(unittest.TestCase):
    def test_an_unknown_form_stops_it(self):
        for line in UNKNOWN:
            for bits in (32, 64):
                with self.subTest(line, bits=bits), self.assertRaisesRegex(Unknown, "unknown form"):
                    rewritten(f"{FRONT}{line}\n", bits, "")

    def test_the_machine_is_that_of_clang(self):
        text = FRONT + 'attributes #0 = { nounwind "target-cpu"="x86-64-v2" }\n'
        self.assertEqual(rewritten(text, 64, ""), "attributes #0 = { nounwind }\n")

    def test_other_machines_are_refused(self):
        for front in ("", FRONT.replace('"e-', '"E-')):
            with self.assertRaisesRegex(Unknown, "little-endian"):
                rewritten(front, 32, "")

    def test_integers_and_places_stay(self):
        self.assertEqual(narrow(*SAME.splitlines()), SAME.splitlines())

    def test_on_64_bits_all_stays(self):
        text = SAME + ("  %r5 = load ptr, ptr %r0, align 8\n  %r6 = alloca ptr, align 8\n"
                       "  %r7 = load { i8, ptr }, ptr %r0, align 8\n"
                       "  %r8 = call { i64, i64 } @rattle_alloc(i64 8, i64 8)\n")
        self.assertEqual(rewritten(FRONT + text, 64, ""), text)

    def test_a_pointer_in_memory_has_64_bits(self):
        self.assertEqual(narrow("  %a = load ptr, ptr %p, align 1, !nonnull !1"),
                         ["  %narrow.0 = load i64, ptr %p, align 1",
                          "  %a = inttoptr i64 %narrow.0 to ptr"])
        self.assertEqual(narrow("  store ptr %a, ptr %p, align 8"),
                         ["  %narrow.0 = ptrtoint ptr %a to i64",
                          "  store i64 %narrow.0, ptr %p, align 8"])
        self.assertEqual(narrow("  %a = alloca ptr, align 8"), ["  %a = alloca i64, align 8"])
        self.assertEqual(narrow("  %a = ptrtoaddr ptr %p to i64"),
                         ["  %a = ptrtoint ptr %p to i64"])

    def test_volatile_stays(self):
        self.assertIn("load volatile i64", narrow("  %a = load volatile ptr, ptr %p, align 8")[0])
        self.assertIn("store volatile i64", narrow("  store volatile ptr %a, ptr %p, align 8")[1])

    def test_each_place_has_a_name_of_its_own(self):
        made = narrow("  %a = load ptr, ptr %p, align 8", "  %b = load ptr, ptr %p, align 8")
        self.assertEqual(len({it.split()[0] for it in made}), 4)

    def test_a_pair_is_where_it_is_on_64_bits(self):
        for kinds, place in (("i8, ptr", 8), ("i32, i8", 4), ("i8, i32", 4), ("i64, i8", 8),
                             ("ptr, i8", 8), ("i1, i8", 1), ("ptr, i64", 8), ("i8, i128", 16)):
            with self.subTest(kinds):
                made = narrow(f"  %a = load {{ {kinds} }}, ptr %p, align 8")
                gone = [it.rsplit(" ", 1)[1] for it in made if "getelementptr i8, ptr %p," in it]
                self.assertEqual(gone, [str(place)])
                self.assertNotIn("load ptr", "".join(made))
                first, second = kinds.split(", ")
                self.assertRegex(made[-2], rf"insertvalue {{ {kinds} }} poison, {first} \S+, 0$")
                self.assertRegex(made[-1], rf"^  %a = insertvalue .*, {second} \S+, 1$")

    def test_a_pair_reads_both_fields(self):
        made = narrow("  %a = load { i8, ptr }, ptr %p, align 8")
        self.assertEqual([it.split(" = ")[1] for it in made], [
            "load i8, ptr %p, align 8", "getelementptr i8, ptr %p, i64 8",
            "load i64, ptr %narrow.0, align 8", "inttoptr i64 %narrow.4 to ptr",
            "insertvalue { i8, ptr } poison, i8 %narrow.1, 0",
            "insertvalue { i8, ptr } %narrow.3, ptr %narrow.2, 1"])

    def test_a_pair_is_aligned_as_it_says(self):
        for align, other in ((1, 1), (2, 2), (4, 4), (8, 4), (16, 4)):
            made = "".join(narrow(f"  %a = load {{ i8, i32 }}, ptr %p, align {align}"))
            self.assertRegex(made, rf"load i8, ptr %p, align {align} .*load i32, .* {other}  ")

    def test_moves_count_in_32_bits(self):
        self.assertEqual(
            narrow("  call void @llvm.memset.p0.i64(ptr %p, i8 0, i64 16, i1 false)"),
            ["  call void @llvm.memset.p0.i32(ptr %p, i8 0, i32 16, i1 false)"])
        self.assertEqual(
            narrow("  call void @llvm.memmove.p0.p0.i64(ptr align 1 %p, ptr %q, i64 %n, i1 true)"),
            ["  %narrow.0 = trunc i64 %n to i32",
             "  call void @llvm.memmove.p0.p0.i32(ptr align 1 %p, ptr %q, i32 %narrow.0, i1 true)"])
        self.assertEqual(
            narrow("declare void @llvm.memcpy.p0.p0.i64(ptr noalias, ptr, i64, i1 immarg) #1"),
            ["declare void @llvm.memcpy.p0.p0.i32(ptr noalias, ptr, i32, i1 immarg) #1"])

    def test_memory_is_asked_through_a_front(self):
        self.assertEqual(
            narrow("declare { i64, i64 } @rattle_alloc(i64 noundef, i64 noundef) #0",
                   "declare void @rattle_dealloc(ptr noundef) #0",
                   "  %a = call { i64, i64 } @rattle_alloc(i64 %n, i64 8)",
                   "  call void @rattle_dealloc(ptr %p)"),
            ["declare void @rattle_dealloc(ptr noundef) #0",
             "  %a = call { i64, i64 } @wide.rattle_alloc(i64 %n, i64 8)",
             "  call void @rattle_dealloc(ptr %p)"])


class Fronts(unittest.TestCase):
    HEADER = "int32_t galliumtoad_head(uint32_t tag, uint8_t *head, size_t room,\n" \
        "    size_t *len);\nvoid galliumtoad_card_free(gt_card *c);\n" \
        "uint32_t galliumtoad_version(void);\n"
    MODULE = FRONT + (
        "define noundef i32 @galliumtoad_head(i32 noundef %a0, ptr noundef %a1, i64 noundef %a2, "
        "ptr noundef %a3) #0 {\n}\ndefine void @galliumtoad_card_free(ptr noundef %a0) #0 {\n}\n"
        "define noundef i32 @galliumtoad_version() #0 {\n}\n")

    def made(self, header=HEADER, module=MODULE):
        return rewritten(module, 32, header)

    def test_the_modules_functions_are_behind_fronts(self):
        text = self.made()
        self.assertIn("define internal noundef i32 @wide.galliumtoad_head(i32 noundef %a0, ptr"
                      " noundef %a1, i64 noundef %a2, ptr noundef %a3) #0 {\n", text)
        self.assertIn("define noundef i32 @galliumtoad_version() #0 {\n"
                      "  %code = call i32 @wide.galliumtoad_version()\n  ret i32 %code\n", text)
        self.assertIn("define void @galliumtoad_card_free(ptr noundef %a0) #0 {\n"
                      "  call void @wide.galliumtoad_card_free(ptr noundef %a0)\n  ret void\n",
                      text)

    def test_sizes_are_widened_and_narrowed(self):
        text = self.made()
        body = text[text.index("define noundef i32 @galliumtoad_head("):].split("\n}")[0]
        self.assertEqual(body.splitlines(), [
            "define noundef i32 @galliumtoad_head(i32 noundef %a0, ptr noundef %a1, i32 noundef"
            " %a2, ptr noundef %a3) #0 {",
            "  %a2.64 = zext i32 %a2 to i64",
            "  %a3.at = alloca i64, align 8",
            "  %a3.old = load i32, ptr %a3, align 4",
            "  %a3.wide = zext i32 %a3.old to i64",
            "  store i64 %a3.wide, ptr %a3.at, align 8",
            "  %code = call i32 @wide.galliumtoad_head(i32 noundef %a0, ptr noundef %a1, i64"
            " noundef %a2.64, ptr noundef %a3.at)",
            "  %a3.told = load i64, ptr %a3.at, align 8",
            "  %a3.new = trunc i64 %a3.told to i32",
            "  store i32 %a3.new, ptr %a3, align 4",
            "  ret i32 %code"])

    def test_a_header_that_does_not_fit(self):
        for old, new, fault in (
                ("size_t room", "uint32_t room", "takes i64 for uint32_t"),
                ("uint32_t tag", "size_t tag", "takes i32 for size_t"),
                ("uint8_t *head", "uint8_t head", "takes ptr for uint8_t"),
                ("uint32_t tag", "uint32_t *tag", r"takes i32 for uint32_t \*"),
                ("uint32_t tag, ", "", "4 parameters, 3"),
                ("galliumtoad_head", "galliumtoad_read", "does not declare galliumtoad_head"),
                ("void galliumtoad_card_free", "void galliumtoad_t1_free(gt_t1 *t);\n"
                 "void galliumtoad_card_free", "the module has no t1_free")):
            with self.subTest(new), self.assertRaisesRegex(Unknown, fault):
                self.made(header=self.HEADER.replace(old, new))

    def test_a_function_for_c_of_another_form(self):
        for old, new in (("noundef i32 @galliumtoad_version", "i64 @galliumtoad_version"),
                         ("define void @", "define dso_local void @")):
            with self.subTest(new), self.assertRaises(Unknown):
                self.made(module=self.MODULE.replace(old, new))


class Memory(unittest.TestCase):
    """How the module's requests for memory reach C's functions."""

    def asked(self, bits, returned):
        """The function between them, and C's, as they are in the text."""
        text = rewritten(FRONT, bits, "", returned)
        call = re.search(r"  (?:%taken = )?(call .* @rattle_realloc\(.*\))", text)[1]
        declared = re.search(r"declare (.*) @rattle_realloc\((.*)\)", text)
        return call, declared[1], declared[2], text

    def test_a_place_for_it(self):
        for bits, align, size in ((32, 4, "i32 %{}.32"), (64, 8, "i64 %{}")):
            with self.subTest(bits):
                call, back, types, text = self.asked(bits, PLACE)
                sizes = ", ".join(size.format(it) for it in ("kept", "size", "align"))
                place = f"ptr sret({{ i8, ptr }}) align {align}"
                self.assertEqual(call, f"call void @rattle_realloc({place} %taken, ptr %block,"
                                       f" {sizes})")
                self.assertEqual((back, types), ("void", f"{place}, ptr" + f", i{bits}" * 3))
                self.assertIn(f"getelementptr i8, ptr %taken, i{bits} {align}\n", text)

    def test_two_registers_of_32_bits(self):
        call, back, types, text = self.asked(32, REGISTERS)
        self.assertEqual(call, "call [2 x i32] @rattle_realloc(ptr %block, i32 %kept.32,"
                               " i32 %size.32, i32 %align.32)")
        self.assertEqual((back, types), ("[2 x i32]", "ptr, i32, i32, i32"))
        # only the lowest byte of the first has a meaning
        self.assertIn("%flag = and i32 %first, 255\n  %flag.64 = zext i32 %flag to i64\n", text)
        self.assertIn("%second.64 = zext i32 %second to i64\n", text)

    def test_too_much_is_refused(self):
        for bits, most in ((32, 0xFFFFFFFF), (64, 0xFFFFFFFFFFFFFFFF)):
            self.assertEqual(rewritten(FRONT, bits, "", PLACE).count(
                f"%is_large = icmp ugt i64 %size, {most}\n"), 2)

    def test_the_modules_own(self):
        line = "  %a = call { i64, i64 } @rattle_alloc(i64 1, i64 1)\n"
        self.assertEqual(rewritten(FRONT + line, 64, "", REGISTERS), line)
        self.assertIn("@wide.rattle_alloc(i64 1, i64 1)", rewritten(FRONT + line, 64, "", PLACE))

    def test_a_code_has_its_sign(self):
        line = "define noundef i32 @galliumtoad_f() #0 {\n}\ndefine noundef i32 @f() #0 {\n}\n"
        self.assertEqual(rewritten(FRONT + line, 64, ""), line)
        self.assertEqual(rewritten(FRONT + line, 64, "", REGISTERS, "riscv64-unknown-linux-gnu"),
                         line.replace("noundef", "noundef signext", 1))

    def test_windows_has_its_own_probes(self):
        line = 'attributes #0 = { nounwind "probe-stack"="inline-asm" "a"="3" }\n'
        self.assertEqual(rewritten(FRONT + line, 64, ""), line)
        self.assertEqual(rewritten(FRONT + line, 64, "", REGISTERS, "x86_64-w64-windows-gnu"),
                         'attributes #0 = { nounwind "a"="3" }\n')


class Kits(unittest.TestCase):
    """Folders that are no kit, and a kit with another compiler."""

    def new_room(self):
        room = tempfile.TemporaryDirectory()
        self.addCleanup(room.cleanup)
        return Path(room.name)

    def tool(self, room, name, text):
        file = room / "toolchain/bin" / name
        file.parent.mkdir(parents=True, exist_ok=True)
        file.write_text(f"#!/bin/sh\n{text}\n", encoding="utf-8")
        file.chmod(0o755)

    def test_no_kit(self):
        with mock.patch.dict(os.environ, {"PATH": "/nonexistent"}):
            with self.assertRaisesRegex(kit.Fault, "no rt on the path"):
                kit.Kit()
        with self.assertRaisesRegex(kit.Fault, "that is no kit"):
            kit.Kit(self.new_room())

    def test_another_kit(self):
        room = self.new_room()
        self.tool(room, "clang", 'for it; do out=$it; done; echo other > "$out"')
        self.tool(room, "llvm-ar", "echo proved")
        self.assertFalse(kit.Kit(room).is_proved("module"))
        ran = subprocess.run([kit.HERE / "build", "--kit", room, "--to", room],
                             capture_output=True, text=True, check=False, cwd=room)
        self.assertRegex(ran.stderr, "^build: clang of .* makes another object of the stored module"
                                     " than bindings/lib has: take the kit that README names$")
        self.assertEqual((ran.returncode, ran.stdout), (1, ""))
        self.assertEqual([it.name for it in room.iterdir()], ["toolchain"])
        self.tool(room, "llvm-ar", "echo other")
        self.assertTrue(kit.Kit(room).is_proved("module"))

    def test_a_compiler_that_fails(self):
        room = self.new_room()
        self.tool(room, "clang", "echo no such target >&2; exit 1")
        with self.assertRaisesRegex(kit.Fault, "clang of .* fails: no such target"):
            kit.Kit(room).text("module")


if __name__ == "__main__":
    unittest.main()
