"""The built programs of the repository, for the scripts that test them.

The static library that C programs link is proved with the libraries below it, which takes `rt lib` as long as all of them. So each one that
was built is kept in the machine's cache, under a name that tells what it was built from: the same sources and the same kit give the same
library, and it is taken from there.

`tests/programs.py take NAME` puts the library of a crate from the cache where the tests look for it, with status 1 where none is kept of these
sources. `tests/programs.py keep NAME` keeps the one that stands there. `tests/programs.py has NAME` has status 0 where the program of a crate is
built from the sources as they are.
"""
import hashlib
import os
import shutil
import subprocess
import sys

TOP = os.path.dirname(os.path.dirname(os.path.realpath(__file__)))


def die(why):
    """Ends a script that can test nothing."""
    print(f"{os.path.relpath(os.path.realpath(sys.argv[0]), TOP)}: {why}\n0 passed, 1 failed")
    sys.exit(1)


def libraries_below(name):
    """The crate and those of the repository that it stands on."""
    with open(f"{TOP}/crates.txt") as it:
        lines = [line.partition("#")[0].partition(":") for line in it]
    uses = {head.split()[0]: tail.split() for head, _, tail in lines if head.strip()}
    found, waiting = set(), [name]
    while waiting:
        crate = waiting.pop()
        if crate in uses and crate not in found:
            found.add(crate)
            waiting += uses[crate]
    return found


def newest_source(name):
    """When the newest source of the program was written."""
    times = [os.path.getmtime(f"{TOP}/crates.txt")]
    for crate in libraries_below(name):
        for folder, _, names in os.walk(f"{TOP}/crates/{crate}/src"):
            times += [os.path.getmtime(f"{folder}/{it}") for it in names]
    return max(times)


def is_current(program, name):
    """Whether the program is there, and younger than each of its sources."""
    return os.path.isfile(program) and newest_source(name) < os.path.getmtime(program)


def current(path, name, words, rt):
    """The path of what is made of a crate. Where it is not there or older than a source, `rt` with these words makes it, and where that
    fails, what it said is shown, but for the functions that it proved."""
    if is_current(path, name):
        return path
    if not rt:
        die(f"{name} is not built from the sources as they are, and the command rt is not on PATH")
    print(f"building {name}", flush=True)
    said = {"stdout": subprocess.PIPE, "stderr": subprocess.STDOUT, "text": True, "errors": "replace"}
    ran = subprocess.run([rt, *words], cwd=f"{TOP}/crates/{name}", stdin=subprocess.DEVNULL, **said)
    if ran.returncode or not os.path.isfile(path):
        print("\n".join(line for line in ran.stdout.splitlines() if not line.endswith(": proved")), flush=True)
        die(f"{name} was not built: rt {words[0]} ended with status {ran.returncode}")
    return path


def built(name, words, rt=shutil.which("rt")):
    """The built program of a crate. Where it is not there or older than a source, `rt run` builds it, and runs it on these words."""
    return current(f"{TOP}/crates/{name}/out/{name}", name, ["run", "--", *words], rt)


def built_library(name):
    """Where `rt lib` leaves the static library of a crate."""
    return f"{TOP}/crates/{name}/out/lib{name}.a"


def files_below(name):
    """The files that `rt lib` reads for a crate, sorted."""
    found = [f"{TOP}/crates.txt"]
    for crate in libraries_below(name):
        for part in ("src", "specs", "proofs"):
            for folder, _, names in os.walk(f"{TOP}/crates/{crate}/{part}"):
                found += [f"{folder}/{it}" for it in names]
    return sorted(found)


def kept_library(name, rt):
    """Where the cache keeps the static library that these sources and this kit give."""
    digest = hashlib.sha256(subprocess.run([rt, "version"], stdout=subprocess.PIPE, check=True).stdout)
    for path in files_below(name):
        with open(path, "rb") as it:
            data = it.read()
        digest.update(f"{os.path.relpath(path, TOP)} {len(data)}\n".encode() + data)
    cache = os.environ.get("XDG_CACHE_HOME") or os.path.expanduser("~/.cache")
    return f"{cache}/wasmkit/lib{name}-{digest.hexdigest()[:32]}.a"


def copy_whole(source, target):
    """Copies a file, so that nobody finds half of it."""
    os.makedirs(os.path.dirname(target), exist_ok=True)
    shutil.copyfile(source, f"{target}.{os.getpid()}")
    os.replace(f"{target}.{os.getpid()}", target)


def take_library(name, rt):
    """Whether the cache keeps the static library of these sources. Then it is put where the tests look for it."""
    if not rt or not os.path.isfile(kept_library(name, rt)):
        return False
    copy_whole(kept_library(name, rt), built_library(name))
    return True


def keep_library(name, rt):
    """Keeps the static library that was built of these sources, in the place of those of others. One that is older than a source stays out."""
    if not is_current(built_library(name), name):
        return
    kept = kept_library(name, rt)
    try:
        copy_whole(built_library(name), kept)
        for it in os.listdir(os.path.dirname(kept)):
            if it.startswith(f"lib{name}-") and it != os.path.basename(kept):
                os.remove(f"{os.path.dirname(kept)}/{it}")
    except OSError as why:
        print(f"{name} is not kept: {why}", flush=True)


def library(name, rt=shutil.which("rt")):
    """The static library of a crate. Where it is not there or older than a source, it comes from the cache, or `rt lib` builds it."""
    path = built_library(name)
    if is_current(path, name) or take_library(name, rt):
        return path
    current(path, name, ["lib"], rt)
    keep_library(name, rt)
    return path


def allocations(rt=shutil.which("rt")):
    """The archive of the kit that passes a library's allocations on to malloc, realloc and free."""
    if not rt:
        die("the command rt, which knows where the kit is, is not on PATH")
    folder = subprocess.run([rt, "doc"], stdout=subprocess.PIPE, text=True, check=True).stdout.strip()
    while folder != os.path.dirname(folder):
        folder = os.path.dirname(folder)
        if os.path.isfile(f"{folder}/c/liblibc_c.a"):
            return f"{folder}/c/liblibc_c.a"
    die("the kit has no c/liblibc_c.a")


def shared_library(name, folder):
    """The static library of a crate, linked into one that a process can load. It is made in the folder."""
    path = f"{folder}/lib{name}.so"
    compiler = shutil.which("cc") or die("there is no cc, which links the library")
    whole = ["-Wl,--whole-archive", library(name), allocations(), "-Wl,--no-whole-archive"]
    linked = subprocess.run([compiler, "-shared", "-o", path, *whole], capture_output=True, text=True)
    if linked.returncode:
        die(f"{name} was not linked: {linked.stderr}")
    return path


def wasmkit():
    """The built program `wasmkit`."""
    examples = f"{TOP}/examples"
    return built("wasmkit", ["edit", f"{examples}/empty.wasm", f"{examples}/add-type.script", os.devnull])


def main():
    """Takes a library from the cache, keeps one there, or says whether a program is built."""
    rt = shutil.which("rt")
    if len(sys.argv) != 3 or sys.argv[1] not in ("take", "keep", "has") or not rt:
        return 2
    word, name = sys.argv[1:]
    if word == "take":
        return 0 if take_library(name, rt) else 1
    if word == "has":
        return 0 if is_current(f"{TOP}/crates/{name}/out/{name}", name) else 1
    keep_library(name, rt)
    return 0


if __name__ == "__main__":
    sys.exit(main())
