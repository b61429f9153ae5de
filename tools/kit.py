"""The kit's own module rtlib.py, which lies beside the command rt: what the scripts of this folder that call it share."""
import functools
import importlib.machinery
import importlib.util
import os
import shutil
import sys


@functools.lru_cache(maxsize=None)
def module():
    """The kit's module, or None where it can't be read."""
    loader = importlib.machinery.SourceFileLoader("rtlib", f"{os.path.dirname(os.path.realpath(shutil.which('rt')))}/rtlib.py")
    try:
        rtlib = importlib.util.module_from_spec(importlib.util.spec_from_loader("rtlib", loader))
        sys.modules["rtlib"] = rtlib
        loader.exec_module(rtlib)
    except (OSError, ImportError, SyntaxError):
        return None
    return rtlib


def load(names, of_a_crate):
    """The kit's module, or None where it can't be read, or lacks one of these names, or its crates one of theirs."""
    rtlib = module()
    whole = rtlib and all(hasattr(rtlib, it) for it in names) and all(hasattr(rtlib.Crate, it) for it in of_a_crate)
    return rtlib if whole else None
