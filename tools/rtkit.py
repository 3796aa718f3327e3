"""The toolchain's `rt` as a module, with stamps and lists of crates below remembered.

As a program it is `rt` with each sum of sources made once, where some kits make one for each path down through crates.txt."""
import importlib.machinery
import importlib.util
import os
import shutil
import sys


def load():
    path = os.path.realpath(shutil.which("rt"))
    loader = importlib.machinery.SourceFileLoader("rtci", path)
    made = importlib.util.module_from_spec(importlib.util.spec_from_loader("rtci", loader))
    sys.modules["rtci"] = made
    loader.exec_module(made)
    return made


rt = load()
rtlib = rt.rtlib
KEPT = "/tmp/holp-kept"


def is_kept(folder):
    """Returns whether gate.py kept there what a whole proof made."""
    return os.path.exists(f"{folder}/whole")


def put(source, to):
    """Links a file, or the files of a folder, to another place, if it is there."""
    if os.path.isdir(source):
        shutil.rmtree(to, ignore_errors=True)
        shutil.copytree(source, to, copy_function=os.link, ignore=shutil.ignore_patterns("stamp"))
    elif os.path.isfile(source):
        os.makedirs(os.path.dirname(to), exist_ok=True)
        if os.path.lexists(to):
            os.remove(to)
        os.link(source, to)


def remembered(name):
    own = getattr(rtlib.Crate, name)

    def get(self):
        kept = self.__dict__.setdefault("_remembered", {})
        if name not in kept:
            kept[name] = own(self)
        return list(kept[name]) if isinstance(kept[name], list) else kept[name]

    return get


def remember():
    for name in ("stamp", "below"):
        setattr(rtlib.Crate, name, remembered(name))


def crates(root):
    """Returns the crates of the repository at root, lowest first, and goes there."""
    os.chdir(root)
    made = rtlib.Crate.__init__

    def make(self, *given, **named):
        made(self, *given, **named)
        rt.read_files(self)

    rtlib.Crate.__init__ = make
    remember()
    rtlib.guarded()
    return sorted(rtlib.crates_below(os.getcwd()), key=lambda it: len(it.below()))


if __name__ == "__main__":
    remember()
    sys.argv[0] = rt.__file__
    sys.exit(rt.main(sys.argv[1:]))
