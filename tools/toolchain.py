"""What the tools share: the toolchain's own module, and which libraries of tools/build are up to date."""
import importlib.machinery
import importlib.util
import os
import shutil
import subprocess
import sys

ROOT = os.path.dirname(os.path.dirname(os.path.realpath(__file__)))


def toolchain():
    """Loads the module of the command `rt`, whose crates can be checked and built."""
    if not shutil.which("rt"):
        sys.exit("the command `rt` of the Rattle kit isn't on the path")
    page = subprocess.run(["rt", "doc"], capture_output=True, text=True, check=True).stdout.strip()
    sys.dont_write_bytecode = True
    loader = importlib.machinery.SourceFileLoader("rt", f"{os.path.dirname(page)}/bin/rt")
    made = importlib.util.module_from_spec(importlib.util.spec_from_loader("rt", loader))
    loader.exec_module(made)
    # Kits that share work between checkouts do so only if they are told to; other kits have no such call.
    getattr(made, "share_work", lambda is_shared: None)(True)
    made.rtlib.Crate = made.Crate
    return made


def library(crate):
    """The path of the library that tools/build makes of `crate`."""
    return f"{crate.folder}/out/program/{crate.name}.rlib"


def kept(crate):
    """The path of the file that holds the checksum of the sources which that library was made from."""
    return f"{crate.folder}/out/program/stamp"


def is_kept(rtlib, crate):
    """Whether the library was made from the sources as they are now."""
    return os.path.isdir(library(crate)) and rtlib.text_of(kept(crate)) == crate.stamp()


def take_proved(made, crates):
    """Gives these crates, lowest first, the libraries that `rt ci` proved on this machine from the same sources, in any checkout.

    Returns the names of those that it hasn't. They go to where `rt check` looks for them, out/rlib. A kit that keeps no libraries has none."""
    if not hasattr(made, "Kept"):
        return [it.name for it in crates]
    made.Crate.allowed = made.handles_of(ROOT)
    held, missing = made.Kept(crates), []
    for crate in crates:
        key = None if any(it.name in missing for it in crate.below()) else held.key(crate)
        if not key or not os.path.isdir(held.place(crate, False, key)):
            missing.append(crate.name)
            continue
        # (what is there already would make the kept library look damaged)
        shutil.rmtree(f"{crate.folder}/out/rlib", ignore_errors=True)
        if held.give(crate, False, key):
            held.is_built(crate)
        else:
            missing.append(crate.name)
    return missing


def take_from(checkout, crates):
    """Has these crates read the libraries that `rt ci` left in another checkout, and returns the names of those whose files differ there.

    The statements of these are taken as they are there, which is right as long as only bodies and proofs were changed."""
    differ = []
    for crate in crates:
        there = f"{checkout}/crates/{os.path.basename(crate.folder)}"
        crate.rlib = f"{there}/{os.path.relpath(crate.rlib, crate.folder)}"
        if not os.path.isdir(crate.rlib):
            sys.exit(f"{there} has no library that rt ci left")
        parts = [f"{it}/{part}" for it in (crate.folder, there) for part in ("src", "specs", "proofs")]
        own, others = ([p for p in parts if p.startswith(f"{it}/") and os.path.isdir(p)] for it in (crate.folder, there))
        is_same = len(own) == len(others) and all(subprocess.run(["diff", "-rq", *it], capture_output=True).returncode == 0 for it in zip(own, others))
        differ += [] if is_same else [crate.name]
    return differ
