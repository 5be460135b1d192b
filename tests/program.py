"""The program that the scripts of tests/ run."""
import importlib.machinery
import importlib.util
import os
import subprocess

ROOT = os.path.dirname(os.path.dirname(os.path.realpath(__file__)))
# The status of a script that could check nothing, for want of a program or a right; it says which.
SKIPPED = 77


def find_program():
    """The program that BABEL names, or else the one that ./babel runs, which is built first if need
    be."""
    if "BABEL" in os.environ:
        return os.environ["BABEL"]
    ran = subprocess.run(
        [os.path.join(ROOT, "tools", "program")], stdout=subprocess.PIPE, text=True, check=True
    )
    return ran.stdout.strip()


def load_script(name):
    """Another script of tests/ as a module."""
    path = os.path.join(ROOT, "tests", name)
    loader = importlib.machinery.SourceFileLoader(name.replace("-", "_"), path)
    module = importlib.util.module_from_spec(importlib.util.spec_from_loader(loader.name, loader))
    loader.exec_module(module)
    return module
