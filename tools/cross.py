"""The tools that link and run x86-64 code on this machine, and the Rust crate's source, for the tests and bench/run.

On x86-64 the tools are cc and rustc. On any other machine they are Debian's cross compiler, a rustc with a standard
library for x86-64, and an emulator. tools/install-cross installs them by package name. Run by itself this file says
what is missing.
"""
import os
import pathlib
import platform
import shutil
import subprocess
import sys

ROOT = pathlib.Path(__file__).resolve().parent.parent
TARGET = "x86_64-unknown-linux-gnu"
NATIVE = platform.machine() == "x86_64"
HINT = ": tools/install-cross installs it"
BESIDE = "../shared/docs/src/src/lib.rs"


class Missing(Exception):
    """A tool or a file that is not there; its text says which."""


def c_compiler():
    name = "cc" if NATIVE else "x86_64-linux-gnu-gcc"
    found = shutil.which(name)
    if not found:
        raise Missing(f"{name} is not installed{HINT}")
    return found


def rustc(target=TARGET):
    """The rustc that RUSTC names, or the first one that has a standard library for the target (`*`: for any)."""
    named = os.environ.get("RUSTC")
    if named and not shutil.which(named):
        print(f"RUSTC names {named}, and there is no such program", file=sys.stderr)
        sys.exit(2)
    for name in [named] if named else ["rustc", "/usr/bin/rustc"]:
        found = shutil.which(name)
        if not found:
            continue
        root = subprocess.run([found, "--print", "sysroot"], stdout=subprocess.PIPE, text=True).stdout.strip()
        if list(pathlib.Path(root, "lib", "rustlib").glob(f"{target}/lib/libstd-*.rlib")):
            return found
    asked = f"RUSTC names {named}: " if named else ""
    wanted = "its standard library" if target == "*" else f"a standard library for {target}"
    raise Missing(f"{asked}no rustc with {wanted} is installed{HINT}")


def rust_source():
    """The Rust crate's lib.rs, as it stands: the file that MORUS_RUST names, or the first found; never a copy."""
    named = os.environ.get("MORUS_RUST")
    if named:
        if not os.path.isfile(named):
            print(f"MORUS_RUST names {named}, and there is no such file", file=sys.stderr)
            sys.exit(2)
        return pathlib.Path(named)
    cargo = pathlib.Path(os.environ.get("CARGO_HOME") or os.path.expanduser("~/.cargo"))
    inside = "registry/src/*/morus-0.1.5/src/lib.rs"
    for source in (ROOT / BESIDE, *sorted(cargo.glob(inside))):
        if source.is_file():
            return source
    raise Missing("the source of the Rust crate morus 0.1.5 is not here: MORUS_RUST, which can name its lib.rs, is not"
                  f" set, and there is neither {BESIDE} seen from the repository's root nor {inside} in {cargo}")


def kit():
    """The kit's toolchain folder."""
    rt = shutil.which("rt")
    if not rt:
        raise Missing("rt is not on the path")
    return pathlib.Path(rt).resolve().parent.parent / "toolchain"


def emulator():
    """The words before a statically linked x86-64 program that run it: none on x86-64."""
    if NATIVE:
        return []
    found = shutil.which("qemu-x86_64")
    if not found:
        raise Missing(f"qemu-x86_64 is not installed{HINT}")
    return [found]


def loader():
    """The words before a dynamically linked x86-64 program: on another machine the emulator, with the kit's loader and
    C library."""
    if NATIVE:
        return []
    lib = kit() / "lib"
    return [*emulator(), str(lib / "ld-linux-x86-64.so.2"), "--library-path", str(lib)]


def library():
    """The archive of the crate `export`, proved and built anew."""
    output = {"stdout": subprocess.PIPE, "stderr": subprocess.STDOUT, "text": True}
    run = subprocess.run([ROOT / "tools" / "build", "export"], **output)
    if run.returncode != 0:
        raise SystemExit(run.stdout[-3000:] + "\ntools/build export: not built")
    return ROOT / "crates" / "export" / "out" / "libexport.a"


def rust(out, source, *words, kind="rlib", name=None):
    """Compiles a Rust file for the x86-64 baseline."""
    linker = [] if NATIVE else ["-C", f"linker={c_compiler()}"]
    command = [rustc(), "--edition", "2021", "--target", TARGET]
    command += ["-C", "opt-level=3", "-C", "panic=abort", "-C", "target-cpu=x86-64"]
    command += linker + ["--crate-type", kind, "-o", out, source, *words]
    if name:
        command += ["--crate-name", name]
    subprocess.run([str(word) for word in command], check=True)
    return out


def rust_crate(room):
    """The Rust crate, unchanged."""
    return rust(room / "libmorus.rlib", rust_source(), "--cap-lints", "allow", "--cfg", 'feature="std"', name="morus")


def say_missing():
    for find in (c_compiler, rustc, emulator, loader, rust_source):
        try:
            find()
        except Missing as what:
            print(what)


if __name__ == "__main__":
    say_missing()
