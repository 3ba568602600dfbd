"""The library from C and from Rust: links, runs and compares. tests/gate-library runs this.

Builds the library by tools/build, then examples/*.c and tests/library/*.c with warnings as errors, bindings/rust, and
one source file against the Rust crate and against bindings/rust, whose outputs must be the same. The library is x86-64
code: on another machine this uses the cross tools that tools/install-cross installs. What is missing is said, and what
needs it is left out. Exit status: 0 all that could run passed, 1 something did not.
"""
import functools
import pathlib
import re
import subprocess
import sys
import tempfile

sys.dont_write_bytecode = True  # no cache beside the scripts
LIBRARY = pathlib.Path(__file__).resolve().parent
sys.path.insert(0, str(LIBRARY.parent.parent / "tools"))
import cross

WARNINGS = ["-std=c99", "-O2", "-Wall", "-Wextra", "-Wpedantic", "-Wconversion", "-Werror"]


def failed(what):
    print(f"gate-library: {what}")
    sys.exit(1)


def run(before, program, *words, status=0):
    command = [str(word) for word in (*before, program, *words)]
    done = subprocess.run(command, stdout=subprocess.PIPE, stderr=subprocess.STDOUT)
    if done.returncode != status:
        failed(f"{program.name} ended with {done.returncode} and not {status}:\n{done.stdout.decode('latin-1')}")
    return done.stdout


def built(room, archive, source):
    program = room / f"{source.parent.name}-{source.stem}"
    command = [cross.c_compiler(), *WARNINGS, "-static", f"-I{cross.ROOT / 'include'}", "-o", program, source, archive]
    if subprocess.run([str(word) for word in command]).returncode != 0:
        failed(f"{source.name} does not compile without a warning")
    return program


def c_program(room, archive, source):
    return run(cross.emulator(), built(room, archive, source))


def alone(room, archive):
    """The whole archive, linked with no C library but what tests/library/alone.c has of it."""
    whole = ["-nostdlib", "-static", "-Wl,--whole-archive"]
    command = [cross.c_compiler(), *WARNINGS, "-o", room / "alone", LIBRARY / "alone.c", *whole, archive]
    if subprocess.run([str(word) for word in command]).returncode != 0:
        failed("the archive wants more from outside than memcpy and memset")
    print("gate-library: the archive wants nothing from outside but memcpy and memset")


def from_c(room, archive):
    alone(room, archive)
    if c_program(room, archive, cross.ROOT / "examples" / "library.c") != (LIBRARY / "example.stdout").read_bytes():
        failed("examples/library.c writes something else than tests/library/example.stdout")
    if example_in_parts(room, archive) != (LIBRARY / "parts.stdout").read_bytes():
        failed("examples/parts.c writes something else than tests/library/parts.stdout")
    print("gate-library: examples/*.c, compiled with warnings as errors, write what they must")
    for checks in ("refusals.c", "parts.c"):
        print("gate-library: " + c_program(room, archive, LIBRARY / checks).decode().strip())
    stack(c_program(room, archive, LIBRARY / "stack.c").decode().strip())


def example_in_parts(room, archive):
    """What the example says of files that it seals and checks; damaged ones it refuses."""
    example = functools.partial(run, cross.emulator(), built(room, archive, cross.ROOT / "examples" / "parts.c"))
    plain, sealed, said = room / "heap.map", room / "heap.sealed", b""
    for size in (0, 1, 4080, 4095, 4096, 4097, 10000):
        plain.write_bytes(bytes(i * 7 % 256 for i in range(size)))
        said += example("seal", size + 1, plain, sealed) + example("check", sealed)
        whole = sealed.read_bytes()
        example("seal", size + 2, plain, sealed, status=2)
        if len(whole) != size + 32 or whole != sealed.read_bytes():
            failed(f"examples/parts.c: {len(whole)} bytes are made of {size}, or written over")
        for damaged in (*damages(whole), whole[:-1], whole + b"\0", whole[:31], b""):
            sealed.write_bytes(damaged)
            example("check", sealed, status=1)
        sealed.unlink()
    return said


def damages(whole):
    """One bit changed in the nonce, the ciphertext where there is any, and the tag."""
    for place in sorted({0, 15, 16, len(whole) // 2, len(whole) - 17, len(whole) - 16, len(whole) - 1}):
        yield whole[:place] + bytes([whole[place] ^ 1]) + whole[place + 1:]


def stack(said):
    """What was measured is less than the header says."""
    header = (cross.ROOT / "include" / "votrikany.h").read_text()
    bound = int(re.search(r"less than ([\d,]+) bytes in every call", header)[1].replace(",", ""))
    most = int(re.search(r"at most (\d+) bytes", said)[1])
    if most >= bound:
        failed(f"{said}, and include/votrikany.h says less than {bound}")
    print("gate-library: " + said)


def rust_program(room, name, source, *words):
    return run(cross.loader(), cross.rust(room / name, source, *words, kind="bin"))


def from_rust(room, archive):
    where = ["-L", f"native={archive.parent}", "--cfg", 'feature="std"', "-D", "warnings"]
    source = cross.ROOT / "bindings" / "rust" / "src" / "lib.rs"
    ours = cross.rust(room / "libvotrikany.rlib", source, *where, name="votrikany")
    for checks in ("journal", "parts"):
        said = rust_program(room, f"rust-{checks}", LIBRARY / f"{checks}.rs", "--extern", f"votrikany={ours}")
        print("gate-library: " + said.decode().strip())
    return ours


def drop_in(room, ours):
    source = LIBRARY / "drop_in.rs"
    theirs = cross.rust_crate(room)
    wanted = rust_program(room, "with-the-rust", source, "--extern", f"morus={theirs}")
    got = rust_program(room, "with-ours", source, "--extern", f"morus={ours}")
    if got != wanted or not wanted:
        failed("tests/library/drop_in.rs writes something else against bindings/rust than against the Rust crate")
    lines = wanted.count(b"\n")
    print(f"gate-library: drop_in.rs writes the same {lines} lines against bindings/rust as against the Rust crate")


def part(name, work, *words):
    """The part's result, or None where it was left out."""
    try:
        return work(*words)
    except cross.Missing as what:
        print(f"gate-library: {name} left out: {what}")
        return None


def main():
    try:
        cross.c_compiler(), cross.emulator()
    except cross.Missing as what:
        print(f"gate-library: skipped, nothing was linked or run: {what}")
        return
    archive = cross.library()
    with tempfile.TemporaryDirectory() as name:
        room = pathlib.Path(name)
        from_c(room, archive)
        ours = part("the Rust binding is", from_rust, room, archive)
        if ours:
            part("the comparison with the Rust crate is", drop_in, room, ours)


main()
