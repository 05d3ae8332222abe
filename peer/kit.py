"""What compare and speed share: where the programs are, how they are run, and the generator."""
import importlib.machinery
import importlib.util
import os
import subprocess
import sys

HERE = os.path.dirname(os.path.abspath(__file__))
ROOT = os.path.dirname(HERE)
sys.dont_write_bytecode = True


def tools():
    """The folder of the kit's compiler and C library."""
    guide = subprocess.run(["rt", "doc"], stdout=subprocess.PIPE, check=True, text=True).stdout.strip()
    return os.path.join(os.path.dirname(guide), "toolchain")


def program(name):
    """A program of the project, proved and built; it may not read what is ours."""
    subprocess.run([os.path.join(ROOT, "flassanya"), name], stdin=subprocess.DEVNULL,
                   stdout=subprocess.DEVNULL, check=True)
    return [os.path.join(ROOT, "crates", name, "out", name)]


def peer():
    """The peer, built by the machine's own compiler."""
    path = os.path.join(HERE, "peer")
    source = os.path.join(HERE, "peer.c")
    if not os.path.exists(path) or os.path.getmtime(path) < os.path.getmtime(source):
        subprocess.run(["cc", "-std=c11", "-O2", "-o", path, source], check=True)
    return [path]


def generator():
    loader = importlib.machinery.SourceFileLoader("make", os.path.join(HERE, "make"))
    module = importlib.util.module_from_spec(importlib.util.spec_from_loader("make", loader))
    loader.exec_module(module)
    return module


def answer(words, data):
    """What a program writes on this input, and nothing where it fails."""
    run = subprocess.run(words, input=data, stdout=subprocess.PIPE)
    return run.stdout if run.returncode == 0 else run.stdout + b"\n(status %d)\n" % run.returncode
