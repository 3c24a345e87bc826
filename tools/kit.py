"""The toolchain's own command as a module, the crates as it sees them, and what tools/built.sh says of the sources."""
import importlib.machinery
import importlib.util
import os
import shutil
import subprocess

TOP = os.path.dirname(os.path.dirname(os.path.abspath(__file__)))


def toolchain():
    path = os.path.realpath(shutil.which("rt"))
    loader = importlib.machinery.SourceFileLoader("rt", path)
    module = importlib.util.module_from_spec(importlib.util.spec_from_loader("rt", loader))
    loader.exec_module(module)
    return module


def crates(rt):
    known = {}
    return [rt.rtlib.Crate(folder, TOP, known) for folder in rt.rtlib.listed(TOP)]


def of_sources(words, *given):
    """What words of tools/built.sh print."""
    ran = subprocess.run(["sh", "-c", f'top=$0 && . "$top/tools/built.sh" && {words}', TOP, *given], check=True, text=True,
                         stdout=subprocess.PIPE)
    return ran.stdout.strip()
