"""What is looked at of a library for C that was installed below a prefix."""
import os
import re
import shutil
import subprocess

TOP = os.path.dirname(os.path.dirname(os.path.dirname(os.path.abspath(__file__))))


def text_of(path):
    with open(path, encoding="utf-8") as file:
        return file.read()


def version():
    """The program's own."""
    return re.search(r'^const VERSION: &str = "(.*)";$', text_of(f"{TOP}/crates/racl_options/src/command_line.rt"), re.M)[1]


def version_of(name):
    """That which a header says."""
    found = re.search(r'^#define [A-Z]+_VERSION "(.*)"$', text_of(f"{TOP}/include/{name}.h"), re.M)
    return found and found[1]


def put(name, archive, prefix):
    """Puts a library that is made of its archive below a prefix. What was said where that failed."""
    os.makedirs(f"{prefix}/include", exist_ok=True)
    shutil.copy(f"{TOP}/include/{name}.h", f"{prefix}/include")
    ran = subprocess.run([f"{TOP}/install/library", name, archive, f"{prefix}/lib"], capture_output=True, text=True)
    if ran.returncode:
        return ran.stderr
    told = text_of(f"{prefix}/lib/{name}.pc")
    with open(f"{prefix}/lib/{name}.pc", "w", encoding="utf-8") as file:
        file.write(re.sub("(?m)^prefix=.*", f"prefix={prefix}", told))
    return ""


def archives(named=None):
    """What a program over the filter is linked with: an archive that is named, the one of out/library or the one that `rt lib` left; and
    the toolchain's part, which the last one lacks."""
    kit = os.path.dirname(os.path.dirname(os.path.realpath(shutil.which("rt") or "/")))
    left = [it for it in (f"{TOP}/out/library/libracl.a", f"{TOP}/crates/racl_c/out/libracl_c.a") if os.path.exists(it)]
    return [named or left[0]] + [it for it in [f"{kit}/c/liblibc_c.a"] if os.path.exists(it)] if named or left else []


def crate_tests(name, folder, prefix, run):
    """The tests of a crate of bindings/rust over the library below a prefix, which is all that it has: it stands alone in a folder, and
    pkg-config finds the library."""
    own = f"{folder}/{name}_crate"
    shutil.copytree(f"{TOP}/bindings/rust" + ("/filter" if name == "racl" else ""), own, ignore=shutil.ignore_patterns("target", "filter"))
    ended = run(["cargo", "test", "--quiet", "--offline", "--manifest-path", f"{own}/Cargo.toml"], CARGO_TARGET_DIR=f"{folder}/cargo",
                PKG_CONFIG_PATH=f"{prefix}/lib")
    return f"the crate {name} over its library alone: {ended}", ended[2] == 0


def names_in(path, *words):
    """The names that a file defines for others."""
    ran = subprocess.run(["nm", "--defined-only", "-g", *words, path], capture_output=True, text=True)
    return [it.split()[2] for it in ran.stdout.splitlines() if len(it.split()) == 3]


class Package:
    """A library below a prefix, of which pkg-config reads in a folder."""

    def __init__(self, name, prefix, folder):
        self.name, self.prefix, self.folder = name, prefix, folder

    def asked(self, *words):
        own = ["pkg-config", f"--define-variable=prefix={self.prefix}", *words, self.name]
        return subprocess.run(own, capture_output=True, text=True, env={**os.environ, "PKG_CONFIG_PATH": self.folder}).stdout.split()

    def checks(self, source, words, given, wanted):
        """What is compared, and whether it is so: its names, its version, and a program over it, by its shared object and by its
        archive, which is run with these words and this input."""
        library = f"{self.prefix}/lib/lib{self.name}"
        for path, how in ((f"{library}.a", []), (f"{library}.so", ["-D"])):
            names = names_in(path, *how)
            yield f"{path} has {names}", names and all(re.match(rf"{self.name}[46]?_", it) for it in names)
        if not shutil.which("pkg-config"):
            return
        told = self.asked("--modversion")
        yield f"version {told} of {self.name}.pc", told == [version()]
        program = f"{self.prefix}/{self.name}_program"
        for is_static in (False, True):
            links = self.asked("--libs") if not is_static else [f"{library}.a"]
            ran = subprocess.run(["cc", "-std=c11", *self.asked("--cflags"), "-o", program, source, *links, "-lpthread"],
                                 capture_output=True, text=True)
            yield f"a program by {' '.join(links)}: {ran.stderr}", ran.returncode == 0
            if ran.returncode == 0:
                place = {} if is_static else {"LD_LIBRARY_PATH": f"{self.prefix}/lib"}
                ran = subprocess.run([program, *words], input=given, capture_output=True, text=True, env={**os.environ, **place})
                yield f"{program}: {ran}", (ran.stdout, ran.stderr, ran.returncode) == (wanted, "", 0)
