"""The published Rust, as its driver shows it, and the operation on a file: what the tools and the benchmark share."""

import os
import pathlib
import subprocess
import sys

ROOT = pathlib.Path(__file__).resolve().parent.parent
DATABASES = pathlib.Path("/usr/share/metamath/databases")


def original():
    """The path of the published Rust with its driver, built for release from bench/original."""
    built = {**os.environ, "CARGO_TARGET_DIR": str(ROOT / "target/original"), "RUSTFLAGS": "--cap-lints allow"}
    done = subprocess.run(["cargo", "build", "--release", "--offline", "--quiet"], cwd=ROOT / "bench/original", env=built)
    if done.returncode:
        sys.exit("cargo could not build bench/original")
    return ROOT / "target/original/release/original"


def database(folder, name):
    """The path of a database in a folder, by default that of the Debian package metamath-databases."""
    path = pathlib.Path(folder or DATABASES) / f"{name}.mm"
    if not path.exists():
        sys.exit(f"{path} is not there: install the Debian package metamath-databases, or name the folder of the .mm files")
    return path


def built():
    """The path of the program `on-file`, built for release over the proved archive."""
    if not (ROOT / "target/staticlib/libcapi.a").exists():
        sys.exit("target/staticlib/libcapi.a is not there: run `tools/archive capi` first")
    done = subprocess.run(["cargo", "build", "--release", "--offline", "--quiet"], cwd=ROOT / "host")
    if done.returncode:
        sys.exit("cargo could not build host/")
    return ROOT / "host/target/release/on-file"


def without_nested_c(diags):
    """The diagnostics stream but for kind 13, which the original leaves to its parser."""
    records = [diags[i:i + 18] for i in range(0, len(diags), 18)]
    return b"".join(d for d in records if d[4:6] != b"\x0d\x00")


def in_kind_4(frames):
    """A frame stream with kind 4 for kind 1, the original's: 128 taken off the last byte of the stub string, which ends the record."""
    out, at = bytearray(frames), 0
    while at < len(out):
        after = at + 4 + int.from_bytes(out[at:at + 4], "little")
        if out[at + 4:at + 6] == b"\1\0":
            out[at + 4] = 4
            out[after - 1] -= 128
        at = after
    return bytes(out)


def asked(program, folder, text):
    """The original's two streams for the text in a file, its kind 1 records as kind 4; or nothing if it lies outside the domain of equality."""
    frames, diags = folder / "original-frames", folder / "original-diagnostics"
    done = subprocess.run([program, text, frames, diags], capture_output=True, text=True)
    if done.returncode not in (0, 2):
        sys.exit(f"the original ended with {done.returncode} on the text {pathlib.Path(text).read_bytes().hex()}")
    if done.stderr.split("\n")[-2:] != ["domain yes", ""]:
        return None
    return in_kind_4(frames.read_bytes()), diags.read_bytes()
