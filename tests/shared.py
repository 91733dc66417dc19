"""The parts that several tests share: how they load a file as a module, run programs, report, and read the conformance tables."""
import importlib.machinery
import importlib.util
import os
import re
import shutil
import subprocess
import sys
from pathlib import Path

TOP = Path(__file__).resolve().parent.parent


def load(name, path):
    """Loads a file of any name as a module."""
    loader = importlib.machinery.SourceFileLoader(name, str(TOP / path))
    module = importlib.util.module_from_spec(importlib.util.spec_from_loader(name, loader))
    sys.modules[name] = module
    loader.exec_module(module)
    return module


def require(what, got, wanted, told=""):
    """Ends the tests if a result differs from the expected one."""
    if got != wanted:
        sys.exit(f"FAILED {what}: {got!r}, and not {wanted!r}\n{told}")


def expect(what, got, wanted, told=""):
    """Reports that a test passes, or ends the tests."""
    require(what, got, wanted, told)
    print(f"ok {what}", flush=True)


def has(what, *programs):
    """Returns whether the programs are installed. If not, standard error says what is skipped."""
    lacking = [it for it in programs if not shutil.which(it)]
    if lacking:
        print(f"{os.path.relpath(sys.argv[0], TOP)}: skipping {what}: {', '.join(lacking)} not found", file=sys.stderr)
    return not lacking


def run(*words, **how):
    """Returns the output of a command that succeeds."""
    done = subprocess.run([str(it) for it in words], capture_output=True, text=True, timeout=60, **how)
    if done.returncode:
        sys.exit(f"FAILED {words}: status {done.returncode}\n{done.stdout}{done.stderr}")
    return done.stdout


def interpreter(*modules):
    """Returns a Python that has these modules, or None: Debian's packages are for its own Python."""
    for python in (sys.executable, "/usr/bin/python3"):
        if not subprocess.run([python, "-c", f"import {', '.join(modules)}"], stderr=subprocess.DEVNULL).returncode:
            return python
    return None


def rows(name="conformance"):
    """Returns a conformance table, a dictionary for each row."""
    lines = (TOP / f"conformance/{name}.tsv").read_text().splitlines()
    names = lines[0].split("\t")
    return [dict(zip(names, line.split("\t"))) for line in lines[1:]]


def permission_names():
    """Returns the names of the 16 permissions, that of the lowest bit first, as the header defines them."""
    header = (TOP / "include/cheri_cap.h").read_text()
    bits = {int(bit, 16): name for name, bit in re.findall(r"#define CHERI_CAP_PERM_(\w+) 0x(\w+)u", header)}
    return [bits[1 << bit] for bit in range(16)]


def python_module():
    """Returns the module of this checkout for Python, on the library that the environment names, or that it builds if necessary."""
    if "CHERI_CAP_LIBRARY" not in os.environ:
        built = subprocess.run([TOP / "examples/run", "shared"], stdout=subprocess.PIPE, text=True, check=True)
        os.environ["CHERI_CAP_LIBRARY"] = built.stdout.strip()
    return load("cheri_cap", "python/cheri_cap.py")
