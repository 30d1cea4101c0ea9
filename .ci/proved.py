"""What the parts of the gate behind `rt ci` share: the repository's crates, and the compiler called over the libraries that `rt ci` proved and left in
crates/NAME/out, so that nothing is proved a second time."""
import os
import subprocess
import sys

ROOT = os.path.dirname(os.path.dirname(os.path.abspath(__file__)))
KIT = os.path.dirname(subprocess.run(["rt", "doc"], capture_output=True, text=True, check=True).stdout.strip())


def crates():
    """Of each crate, in the order of crates.txt, what it rests on, and whether it is a static library."""
    found = {}
    for line in open(os.path.join(ROOT, "crates.txt"), encoding="utf-8"):
        head, colon, used = line.split("#")[0].partition(":")
        if colon:
            name, *kind = head.split()
            found[name] = (used.split(), "staticlib" in kind)
    return found


CRATES = crates()


def below(crate):
    """The crate and all that it rests on, of this repository, lowest first."""
    found = []
    for used in CRATES[crate][0]:
        if used in CRATES:
            found += [each for each in below(used) if each not in found]
    return [*found, crate]


def library(crate, top=ROOT):
    """Where the proved library of a crate lies."""
    return os.path.join(top, "crates", crate, "out", "rlib", f"{crate}.rlib")


def settle():
    """Where the checkout's own checks had left libraries, `rt ci` put those back, and proved libraries of two kinds do not fit together: then `rt` builds what
    lacks. In a fresh clone there are none."""
    if any(os.path.exists(os.path.join(ROOT, "crates", crate, "out", "rlib", "stamp")) for crate in CRATES):
        tops = [crate for crate in CRATES if not any(crate in used for used, _ in CRATES.values())]
        for crate in tops:
            ran = subprocess.run(["rt", "check"], cwd=os.path.join(ROOT, "crates", crate), stdin=subprocess.DEVNULL, capture_output=True, text=True)
            if ran.returncode != 0:
                sys.exit(f"{crate} is not proved\n{(ran.stdout + ran.stderr)[-2000:]}")


def compiler(verb, crate, to, place=library, folder=None, jobs=1):
    """Calls the compiler on a crate: `check` proves it, `build` proves it and builds what it is. The libraries below lie where `place` says."""
    used, is_static = CRATES[crate]
    folder = folder or os.path.join(ROOT, "crates", crate)
    is_program = os.path.exists(os.path.join(folder, "src", "main.rt"))
    words = ["--crate-name", crate, "src/main.rt" if is_program else "src/lib.rt"]
    for each in ["std", *(name for name in used if name not in CRATES)]:
        words += ["--extern", f"{each}={KIT}/rlibs/{each}.rlib"]
    words += ["-L", f"dependency={KIT}/rlibs"]
    for each in used:
        if each in CRATES:
            words += ["--extern", f"{each}={place(each)}"]
    for each in below(crate)[:-1]:
        words += ["-L", f"dependency={os.path.dirname(place(each))}"]
    words += ["--antt-project", f"{KIT}/rattle/logic/antt-project.json", "--logic-built", f"{KIT}/logic_built", "--jobs", str(jobs)]
    words += ["--links", f"{crate}="]
    if is_static:
        words += ["--crate-type", "staticlib"]
    if verb == "build":
        words += ["--toolchain", f"{KIT}/toolchain", "--backend", "llvm"] if is_static else ["--statements"]
        words += ["-o", to]
    return subprocess.run(
        [f"{KIT}/bin/rattle", verb, *words], cwd=folder, stdin=subprocess.DEVNULL, stdout=subprocess.PIPE, stderr=subprocess.STDOUT, text=True, errors="replace"
    )
