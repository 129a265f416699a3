"""The machines that get an archive of the stored module, one row each."""

from typing import NamedTuple

from fronts import PLACE, REGISTERS


class Target(NamedTuple):
    """A machine, and how its archive is made and tested."""

    name: str  # the folder of its archive
    triple: str  # for clang
    flags: str  # of the processor, for clang
    bits: int  # of a pointer, and of the header's size_t
    returned: str  # how C returns a struct of a flag and a pointer
    helpers: str  # what the archive also wants, of the linker or the compiler's library
    compiler: str  # of the programs that test it
    runner: str  # what runs them, or what links them if nothing does
    start: str  # how a program begins: a key of STARTS in checks/machines/run
    is_kept: bool  # whether its archive is in this folder


SEMIHOSTED = " -display none -nic none -monitor none -serial none -chardev stdio,id=out" \
    " -semihosting-config enable=on,target=native,chardev=out -kernel"
CORTEX_M = "qemu-system-arm -M {}" + SEMIHOSTED
TARGETS = {it.name: it for it in (
    Target("thumbv7em-none-eabi", "thumbv7em-none-eabi", "-mcpu=cortex-m4 -meabi gnu", 32, PLACE,
           "", "arm-none-eabi-gcc -mcpu=cortex-m4 -mthumb", CORTEX_M.format("mps2-an386"),
           "cortex_m", True),
    # qemu has no board with a Cortex-M0 and room for a play; a Cortex-M3 runs the same code
    Target("thumbv6m-none-eabi", "thumbv6m-none-eabi", "-mcpu=cortex-m0 -meabi gnu", 32, PLACE,
           "__aeabi_llsl __aeabi_lmul",
           "arm-none-eabi-gcc -mcpu=cortex-m0 -mthumb", CORTEX_M.format("mps2-an385"),
           "cortex_m", True),
    Target("arm-linux-gnu", "armv7-unknown-linux-gnueabihf", "-fPIC", 32, PLACE, "",
           "arm-linux-gnueabihf-gcc", "qemu-arm-static", "hosted", True),
    Target("i686-linux-gnu", "i686-unknown-linux-gnu", "-fPIC", 32, PLACE, "_GLOBAL_OFFSET_TABLE_",
           "i686-linux-gnu-gcc", "", "hosted", True),
    Target("riscv64-linux-gnu", "riscv64-unknown-linux-gnu", "-march=rv64gc -mabi=lp64d -fPIC", 64,
           REGISTERS, "", "riscv64-linux-gnu-gcc", "qemu-riscv64-static", "hosted", False),
    # a compiler for Linux makes programs for no system too, if they need none of its library
    Target("riscv32imac-none-elf", "riscv32-unknown-none-elf", "-march=rv32imac -mabi=ilp32", 32,
           REGISTERS, "", "riscv64-linux-gnu-gcc -march=rv32imac_zicsr -mabi=ilp32 -static",
           "qemu-system-riscv32 -M virt -bios none" + SEMIHOSTED, "riscv32", False),
    # for a processor whose floating point is off, and that checks alignment
    Target("aarch64-none-elf", "aarch64-unknown-none-elf", "-mgeneral-regs-only -mstrict-align", 64,
           REGISTERS, "", "aarch64-linux-gnu-gcc -mgeneral-regs-only -mstrict-align -static",
           "qemu-system-aarch64 -M virt -cpu cortex-a53" + SEMIHOSTED, "aarch64", False),
    Target("x86_64-w64-mingw32", "x86_64-w64-windows-gnu", "", 64, PLACE, "___chkstk_ms",
           "x86_64-w64-mingw32-gcc", "wine", "hosted", False),
    Target("wasm32", "wasm32-unknown-unknown", "", 32, PLACE, "__multi3",
           "clang --target=wasm32-unknown-unknown -mbulk-memory", "node", "wasm", False),
    Target("wasm64", "wasm64-unknown-unknown", "", 64, PLACE, "__multi3",
           "clang --target=wasm64-unknown-unknown -mbulk-memory", "node", "wasm", False),
    Target("x86_64-apple-macosx", "x86_64-apple-macosx11.0", "", 64, REGISTERS, "__bzero",
           "clang --target=x86_64-apple-macosx11.0", "ld64.lld-14", "macos", False),
    Target("arm64-apple-macosx", "arm64-apple-macosx11.0", "", 64, REGISTERS, "bzero",
           "clang --target=arm64-apple-macosx11.0", "ld64.lld-14", "macos", False),
)}
