#!/usr/bin/env python3
"""module.py NAME ROOM: builds the program NAME, or the static library NAME, as rt does, over what rt
keeps in out/, and leaves in ROOM what it was made of and what it came to:

    module.bc   the module that the kit's compiler lowers the proved crate to, for x86-64
    words       the words by which its clang was called, a line each, but for the files
    native      the object or the archive
    program     of a program, the object linked

The kit makes code of a module by the clang of a toolchain folder that is named to it. The folder
named here has a clang of a few lines, which keeps the module and then goes on as the kit's.
"""
import importlib.machinery
import importlib.util
import os
import shutil
import subprocess
import sys

sys.dont_write_bytecode = True


def load(path):
    loader = importlib.machinery.SourceFileLoader("rt", path)
    made = importlib.util.module_from_spec(importlib.util.spec_from_loader("rt", loader))
    loader.exec_module(made)
    return made


rt = load(os.path.realpath(shutil.which("rt") or sys.exit("module.py: rt is not found")))
rtlib = rt.rtlib

CLANG = """#!/bin/sh
: >"{room}/words"
skip=
for word; do
    if [ -n "$skip" ]; then skip=; continue; fi
    case $word in
    *.bc) /bin/cp "$word" "{room}/module.bc" || exit 1 ;;
    -o) skip=1 ;;
    --sysroot=*) ;;
    *) printf '%s\\n' "$word" >>"{room}/words" ;;
    esac
done
exec "{clang}" "$@"
"""


def stand_in(room):
    """A toolchain folder whose clang keeps the module that it is given."""
    own, to = f"{rt.KIT}/toolchain", f"{room}/toolchain"
    shutil.rmtree(to, ignore_errors=True)
    os.makedirs(f"{to}/bin")
    os.symlink(f"{own}/lib", f"{to}/lib")
    for name in os.listdir(f"{own}/bin"):
        if name != "clang":
            os.symlink(f"{own}/bin/{name}", f"{to}/bin/{name}")
    # (it is run with no environment, so its paths are written into it)
    with open(f"{to}/bin/clang", "w") as it:
        it.write(CLANG.format(room=room, clang=f"{own}/bin/clang"))
    os.chmod(f"{to}/bin/clang", 0o755)
    return to


def main(name, room):
    rtlib.guarded()
    root = os.getcwd()
    crate = rtlib.Crate(f"{root}/crates/{name}", root, {})
    # As rt ci leaves them, libraries hold statements and have no stamp; else rt builds what has changed.
    for it in crate.below():
        newest = max(os.stat(file).st_mtime for dep in [it, *it.below()] for file in rtlib.files_of(dep.folder))
        if not it.is_built() and not (os.path.isdir(it.rlib) and os.stat(os.path.dirname(it.rlib)).st_mtime > newest):
            said = subprocess.run(["rt", "lib"], cwd=it.folder, stdin=subprocess.DEVNULL, stdout=subprocess.PIPE, stderr=subprocess.STDOUT, errors="replace")
            if said.returncode:
                sys.exit(f"{said.stdout[-900:]}\n{it.name} is not proved")
    toolchain = stand_in(room)
    words = [*crate.words(["--jobs", "1"]), "--toolchain", toolchain, "--backend", "llvm", *rtlib.KEPT, "-o", f"{room}/native"]
    ran = subprocess.run([*rtlib.guarded(), rtlib.RATTLE, "build", *words], cwd=crate.folder, stdin=subprocess.DEVNULL, stdout=subprocess.PIPE, stderr=subprocess.STDOUT, errors="replace")
    if ran.returncode:
        sys.exit(f"{ran.stdout[-900:]}\n{name} is not proved, or not built")
    if crate.is_program:
        link = ["--target", "x86_64-unknown-linux-gnu", "--toolchain", f"{rt.KIT}/toolchain", "-o", f"{room}/program", f"{room}/native", f"{rt.KIT}/c/libos_c.a", f"{rt.KIT}/c/liblibc_c.a"]
        ran = subprocess.run([f"{rt.KIT}/bin/rattle-link", *link], stdin=subprocess.DEVNULL, stdout=subprocess.PIPE, stderr=subprocess.STDOUT, errors="replace")
        if ran.returncode:
            sys.exit(f"{ran.stdout[-900:]}\n{name} is not linked")
    shutil.rmtree(toolchain)


if __name__ == "__main__":
    main(sys.argv[1], os.path.realpath(sys.argv[2]))
