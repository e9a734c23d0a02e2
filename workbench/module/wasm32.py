"""The toolchain's clang and linker, as they make WebAssembly with 32-bit memory."""
import os
import sys
import tempfile
from pathlib import Path

sys.path.insert(0, str(Path(__file__).resolve().parents[2] / "scripts"))

from toolchain import CannotMake, run  # noqa: E402

STACK = 8 << 20

# As the toolchain compiles for its own targets, and without what this one lacks: division and conversions of more than
# 64 bits.
COMPILING = """--target=wasm32-unknown-unknown -mcpu=lime1 --no-default-config -c
    -ffunction-sections -fdata-sections -mllvm -trap-unreachable -mllvm -disable-machine-licm
    -mllvm -disable-postra-machine-licm -mllvm -expand-div-rem-bits=64 -mllvm -expand-fp-convert-bits=64""".split()
COMPILING_C = ["-O2", "-fwrapv", "-ffreestanding", "-nostdinc", "-Werror", "-x", "c"]
LINKING = ["--no-entry", "--stack-first", "-z", f"stack-size={STACK}", "--gc-sections", "--strip-all", "--threads=1"]


class Wasm32:
    def __init__(self, toolchain):
        self.clang, self.linker = toolchain.clang, toolchain.linker
        with tempfile.TemporaryDirectory() as room:
            try:
                self.compile_c(os.devnull, f"{room}/nothing.o")
                self.link([f"{room}/nothing.o"], [], f"{room}/nothing.wasm")
            except CannotMake as error:
                raise CannotMake(f"this toolchain's clang and linker do not make wasm32: {error}") from None

    def compile_c(self, source, to):
        run([self.clang, *COMPILING, *COMPILING_C, source, "-o", to])

    def compile_llvm(self, text, to):
        run([self.clang, *COMPILING, "-O3", "-x", "ir", text, "-o", to])

    def link(self, objects, exports, to):
        names = [f"--export={name}" for name in exports]
        run([self.linker, "-flavor", "wasm", *LINKING, *names, "-o", to, *objects])
