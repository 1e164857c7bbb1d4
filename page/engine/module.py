"""The program as a WebAssembly module, made from what the toolchain builds and the gate proves.

`rattle build` checks the program's crate, lowers the whole program to one LLVM module for x86-64 and has
clang compile it. Here the same command is run with a folder of links in place of the toolchain's, whose
`clang` keeps that module. It is then given the layout and the name of wasm64, compiled by the toolchain's own
clang, and linked with the C of this folder.

Wanted: the toolchain's kit (`rt doc` tells where it is), and a checkout in which the program is built, by `rt
ci`, by ./tilebench or by `rt run` in crates/program: the libraries of the crates below it are read, and
nothing is written there.
"""
import contextlib
import glob
import io
import os
import re
import subprocess
import sys
import tempfile

HERE = os.path.dirname(os.path.realpath(__file__))
# the size of the stack, as the native program's main thread has it twice over
STACK = 16777216
LAYOUT = "e-m:e-p:64:64-p10:8:8-p20:8:8-i64:64-i128:128-n32:64-S128-ni:1:10:20"
WASM = ["--target=wasm64-unknown-unknown", "--no-default-config"]
FEATURES = ["-mbulk-memory", "-mbulk-memory-opt", "-msign-ext", "-mnontrapping-fptoint", "-msimd128"]
LOWERING = ["-no-trap-after-noreturn", "-trap-unreachable", "-expand-div-rem-bits=64", "-expand-fp-convert-bits=64"]
# what differs in the text of the module for wasm64, as patterns with what stands in their place
RETARGET = (
    (r"^target datalayout = .*", f'target datalayout = "{LAYOUT}"'),
    (r"^target triple = .*", 'target triple = "wasm64-unknown-unknown"'),
    (r"^declare .*@llvm\.x86\..*\n", ""),
    (r"^.*call void asm sideeffect \"\", \"~\{memory\}\"\(\).*\n", ""),
    (r"^define i32 @main\(\)", "define i32 @main_of_program()"),
    (r"@llvm\.x86\.ssse3\.pshuf\.b\.128\b", "@x86_pshufb"),
    (r"@llvm\.x86\.sse2\.pause\b", "@x86_pause"),
)
ATTRIBUTES = re.compile(r' "(?:probe-stack|stack-probe-size|target-cpu|target-features)"="[^"]*"')
KEEPING_CLANG = """#!/bin/sh
[ -f module.bc ] && cp module.bc '{work}/module.bc'
exec '{clang}' "$@"
"""


class Missing(Exception):
    """What is wanted and is not there."""


def kit_folder():
    """Where the toolchain is."""
    try:
        told = subprocess.run(["rt", "doc"], check=True, stdout=subprocess.PIPE).stdout.decode().strip()
    except (OSError, subprocess.CalledProcessError) as why:
        raise Missing(f"the toolchain's command rt is wanted: {why}") from why
    return os.path.dirname(told)


def run(words, **how):
    """Runs a command, and tells what it said where it fails."""
    ran = subprocess.run(words, stdout=subprocess.PIPE, stderr=subprocess.STDOUT, check=False, **how)
    said = ran.stdout.decode(errors="replace")
    if ran.returncode:
        raise Missing(f"{os.path.basename(words[0])} failed:\n{said[-3000:]}")
    return said


def keeping_toolchain(kit, work):
    """A folder of links that stands for the toolchain's, whose clang keeps the module that it compiles."""
    folder = f"{work}/toolchain"
    os.makedirs(f"{folder}/bin")
    os.symlink(f"{kit}/toolchain/lib", f"{folder}/lib")
    for name in ("ld.lld", "llvm-ar"):
        os.symlink(f"{kit}/toolchain/bin/{name}", f"{folder}/bin/{name}")
    with open(f"{folder}/bin/clang", "w", encoding="utf-8") as it:
        it.write(KEEPING_CLANG.format(work=work, clang=f"{kit}/toolchain/bin/clang"))
    os.chmod(f"{folder}/bin/clang", 0o755)
    return folder


def build_words(kit, root):
    """The words with which the toolchain itself would build the program, in its crate's folder."""
    sys.path.insert(0, f"{kit}/bin")
    import rtlib

    before = os.getcwd()
    os.chdir(f"{root}/crates/program")
    try:
        crate = rtlib.Crate(os.getcwd(), root, {})
        crate.out = sys.stderr
        missing = [it.name for it in crate.below() if not os.path.exists(it.rlib)]
        if missing:
            raise Missing(f"the program is not built in {root}: no library of {missing[0]}; ./tilebench builds it")
        with contextlib.redirect_stdout(io.StringIO()):
            return [rtlib.RATTLE, "build", *crate.words(["--jobs", "1"])]
    finally:
        os.chdir(before)


def program_module(kit, root, work):
    """The LLVM module of the proved program, and what the toolchain said of the proof."""
    more = ["--backend", "llvm", "--incremental", f"{work}/kept", "--toolchain", keeping_toolchain(kit, work)]
    more += ["-o", f"{work}/program.o"]
    said = run(build_words(kit, root) + more, cwd=f"{root}/crates/program")
    proved = next((it for it in said.split("\n") if it.startswith("logic=proved")), None)
    if not proved:
        raise Missing(f"the toolchain did not say that the program is proved:\n{said[-3000:]}")
    return f"{work}/module.bc", proved


def for_wasm(text):
    """The text of the module, with wasm64's layout and name, and its two instructions of x86-64 in wasm's
    terms."""
    for pattern, replacement in RETARGET:
        text = re.sub(pattern, replacement, text, flags=re.M)
    text = "\n".join(ATTRIBUTES.sub("", line) if line.startswith("attributes #") else line for line in text.split("\n"))
    left = re.search(r"^.*(?:@llvm\.x86\.|asm sideeffect).*$", text, re.M)
    if left:
        raise Missing(f"the module asks for another instruction of x86-64: {left[0].strip()}")
    with open(f"{HERE}/x86.ll", encoding="utf-8") as it:
        return text + it.read()


def linked(clang, work, level):
    """Compiles the module's text and the C of this folder, and links both."""
    lowering = [word for it in LOWERING for word in ("-mllvm", it)]
    sections = ["-ffunction-sections", "-fdata-sections"]
    ends = ["-c", "-x", "ir", f"{work}/wasm.ll", "-o", f"{work}/program.o"]
    run([clang, *WASM, *FEATURES, *ends, level, *sections, *lowering])
    objects = []
    for path in sorted(glob.glob(f"{HERE}/c/*.c")):
        objects.append(f"{work}/{os.path.basename(path)}.o")
        run([clang, *WASM, *FEATURES, "-ffreestanding", "-fno-builtin", "-O2", "-c", path, "-o", objects[-1]])
    # (the toolchain's clang is LLD too, under this name)
    os.symlink(clang, f"{work}/wasm-ld")
    words = ["-mwasm64", "--no-entry", "--export=run", "--gc-sections", "-O2", "--strip-all"]
    words += ["-z", f"stack-size={STACK}", "--stack-first"]
    run([f"{work}/wasm-ld", *words, "-o", f"{work}/program.wasm", f"{work}/program.o", *objects])
    with open(f"{work}/program.wasm", "rb") as it:
        return it.read()


def module_of(root, level="-O3"):
    """The program's WebAssembly module out of a checkout in which it is built, and the toolchain's line on
    its proof."""
    kit = kit_folder()
    clang = f"{kit}/toolchain/bin/clang"
    with tempfile.TemporaryDirectory() as work:
        bitcode, proved = program_module(kit, os.path.realpath(root), work)
        as_text = ["-S", "-emit-llvm", "-Xclang", "-disable-llvm-passes", "--target=x86_64-unknown-linux-gnu"]
        run([clang, "--no-default-config", "-x", "ir", bitcode, *as_text, "-o", f"{work}/x86.ll"])
        with open(f"{work}/x86.ll", encoding="utf-8") as it:
            text = for_wasm(it.read())
        with open(f"{work}/wasm.ll", "w", encoding="utf-8") as it:
            it.write(text)
        return linked(clang, work, level), proved
