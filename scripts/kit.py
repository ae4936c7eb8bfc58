"""The kit's commands over libraries that are proved: what scripts/prove and scripts/check-over share."""
import os
import shutil
import subprocess
import sys

sys.dont_write_bytecode = True

# The checkout of the script that runs, by the path that it was called by: scripts/ may be a link to another one's.
ROOT = os.path.dirname(os.path.dirname(os.path.abspath(sys.argv[0])))
# The kit's folder; empty where there is no kit, as for scripts that need none.
KIT = os.path.dirname(subprocess.run(["rt", "doc"], capture_output=True, text=True).stdout.strip() if shutil.which("rt") else "")
TOOLCHAIN = f"{KIT}/toolchain"


def crates_below():
    """The crates that each crate names, by name."""
    below = {}
    with open(f"{ROOT}/crates.txt", encoding="utf-8") as it:
        for line in it:
            name, _, names = line.partition(":")
            if name.strip() and not name.startswith("#"):
                below[name.split()[0]] = names.split()
    return below


def is_program(crate):
    return os.path.exists(f"{ROOT}/crates/{crate}/src/main.rt")


def rattle(verb, crate, folders, options):
    """The words of rattle's command on a crate; folders has, by name, where each proved library stands."""
    words = [f"{KIT}/bin/rattle", verb, "src/main.rt" if is_program(crate) else "src/lib.rt", "--crate-name", crate,
             "--extern", f"std={KIT}/rlibs/std.rlib", "-L", f"dependency={KIT}/rlibs"]
    for name in crates_below()[crate]:
        if name in folders:
            words += ["--extern", f"{name}={folders[name]}/{name}.rlib"]
    for folder in folders.values():
        words += ["-L", f"dependency={folder}"]
    return words + ["--antt-project", f"{KIT}/rattle/logic/antt-project.json", "--logic-built", f"{KIT}/logic_built", *options]


def linked(program):
    """The words that link a program with the C library of the kit."""
    return [f"{KIT}/bin/rattle-link", "--target", "x86_64-unknown-linux-gnu", "--toolchain", TOOLCHAIN, "-o", program,
            f"{program}.o", f"{KIT}/c/libos_c.a", f"{KIT}/c/liblibc_c.a"]
