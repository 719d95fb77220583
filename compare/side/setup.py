"""Finds what a comparison needs: packages, programs, and the driver over the crate, built from source."""

import hashlib
import os
import re
import shutil
import signal
import subprocess
import sys
from pathlib import Path

COMPARE = Path(__file__).resolve().parent.parent
REGISTRY = Path("/usr/share/cargo/registry")
CRATES = ["librust-byteorder-dev", "librust-bytes-dev", "librust-fallible-iterator-dev"]

# SHA-256 of the published sources of postgres-protocol 0.6.12.
PUBLISHED = {
    "src/lib.rs": "277f4cefb7bc3b74f7844790da5bff43a70d31443202a6f920dab1765427373b",
    "src/types/mod.rs": "ea1a2eadf8e6395599052a3b75387a64a7edf210ea79876e0e42a3689570a3be",
}

MANIFEST = """[package]
name = "postgres-protocol"
version = "0.6.12"
edition = "2021"

[dependencies]
byteorder = "1"
bytes = "1"
fallible-iterator = "0.2"
"""

SOURCES = """[source.crates-io]
replace-with = "debian"

[source.debian]
directory = "{registry}"
"""


def fail(message):
    """Ends the program with what is missing."""
    sys.exit(f"{Path(sys.argv[0]).name}: {message}")


def end_cleanly():
    """Lets a signal to end go the same way out as an error, past what stops servers and removes folders."""
    signal.signal(signal.SIGTERM, lambda *_: sys.exit(1))


def install(packages):
    """Installs those of Debian's packages that are missing."""
    missing = [name for name in packages if not installed(name)]
    if not missing:
        return
    if os.geteuid() != 0 or not shutil.which("apt-get"):
        fail("install these packages first: " + " ".join(missing))
    print("installing", *missing, flush=True)
    environment = {**os.environ, "DEBIAN_FRONTEND": "noninteractive"}
    for command in (["update"], ["install", "-y", "--no-install-recommends", *missing]):
        done = subprocess.run(["apt-get", "-q", *command], stdout=subprocess.DEVNULL, env=environment)
        if done.returncode != 0:
            fail("apt-get could not install " + " ".join(missing))


def installed(package):
    if not shutil.which("dpkg-query"):
        return False
    query = ["dpkg-query", "-W", "-f", "${db:Status-Status}", package]
    return subprocess.run(query, capture_output=True, text=True).stdout == "installed"


def codec():
    """The program under comparison."""
    path = Path(os.environ.get("CODEC") or COMPARE.parent / "crates/codec_all/out/codec_all")
    if not os.access(path, os.X_OK):
        fail(f"{path} is not there: run `rt run < /dev/null` in crates/codec_all first, or name the program in CODEC")
    return path.resolve()


def driver(source, folder):
    """Builds the driver over the crate."""
    return build(source, folder, "driver")


def timer(source, folder):
    """Builds the timer over the crate and the archives of `cabi`."""
    (folder / "archives").mkdir()
    for archive in archives():
        shutil.copy(archive, folder / "archives")
    return build(source, folder, "timer")


def archives():
    """The static library of `cabi`, and the C code that it calls for memory, which the kit of `rt` has."""
    library = COMPARE.parent / "crates/cabi/out/libcabi.a"
    if not library.is_file():
        fail(f"{library} is not there: run `rt lib` in crates/cabi first")
    if not shutil.which("rt"):
        fail("rt is not there: its kit has the C code that the static library calls")
    guide = subprocess.run(["rt", "doc"], capture_output=True, text=True).stdout.strip()
    return [library, *(Path(guide).parent / "c" / name for name in ("liblibc_c.a", "libos_c.a"))]


def build(source, folder, name):
    """Builds a program of this folder over an unchanged copy of the crate's source, in `folder`."""
    source = Path(source)
    for file in PUBLISHED:
        if not (source / file).is_file():
            fail(f"{source} does not hold {file} of postgres-protocol 0.6.12")
    install(CRATES)
    copy_crate(source, folder / "postgres-protocol")
    shutil.copytree(COMPARE / name, folder / name)
    (folder / ".cargo").mkdir()
    (folder / ".cargo/config.toml").write_text(SOURCES.format(registry=REGISTRY))
    cargo(folder / name, "build", "--release")
    return folder / name / "target/release" / name


def copy_crate(source, target):
    """The two files that matter; the modules they name beside `types` are empty files."""
    for name, digest in PUBLISHED.items():
        (target / name).parent.mkdir(parents=True)
        shutil.copyfile(source / name, target / name)
        if hashlib.sha256((target / name).read_bytes()).hexdigest() != digest:
            print(f"warning: {name} is not the published file of 0.6.12")
    (target / "Cargo.toml").write_text(MANIFEST)
    root = (target / "src/lib.rs").read_text()
    for module in re.findall(r"^(?:pub )?mod (\w+);", root, re.MULTILINE):
        if module != "types":
            (target / f"src/{module}.rs").touch()


def test_driver(folder):
    """Runs what the driver's tests say of the crate's cursors, with overflow checks and without."""
    cargo(folder / "driver", "test")
    cargo(folder / "driver", "test", "--release")


def cargo(folder, *command):
    """Runs cargo on the program in `folder`, with nothing from the network."""
    program = shutil.which("cargo") or shutil.which(Path.home() / ".cargo/bin/cargo")
    if program is None:
        fail("cargo is not there: a Rust toolchain from 1.80 on is needed")
    path = f"{Path(program).parent}:{os.environ['PATH']}"
    environment = {**os.environ, "PATH": path, "CARGO_HOME": str(folder.parent / "cargo")}
    command = [program, *command, "--offline", "--quiet", "--jobs", "1"]
    # The warnings are about the crate's copy; they are shown only where something fails.
    done = subprocess.run(command, cwd=folder, env=environment, capture_output=True, text=True)
    if done.returncode != 0:
        fail(f"cargo {command[1]} fails:\n{done.stdout}{done.stderr}")
