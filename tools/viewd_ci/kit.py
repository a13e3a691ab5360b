"""What the kit's `rt` knows, lent as a module: the one place where a program is loaded by its path, since the kit has no other way to lend it."""
import functools
import importlib.machinery
import os
import shutil
import sys
import types
from typing import Any


def need(who: str) -> None:
    """Ends the program, in the words of whom it needs the kit for, if no kit is on the path."""
    if not shutil.which("rt"):
        sys.exit(f"{who}: there is no Rattle kit on the path (rt): put it there by export PATH=KIT/bin:$PATH")


@functools.cache
def rt() -> Any:
    """The kit's `rt`."""
    path = os.path.realpath(shutil.which("rt") or "rt")
    module = types.ModuleType("kit_rt")
    module.__file__ = path
    sys.modules[module.__name__] = module
    importlib.machinery.SourceFileLoader(module.__name__, path).exec_module(module)
    # the kit looks anew at each library below a crate, along each way from one to another: two million times below the gateway
    module.rtlib.Crate.below = functools.cache(module.rtlib.Crate.below)
    return module


def rtlib() -> Any:
    """The kit's words for crates and libraries."""
    return rt().rtlib


def hold_to_handles(top: str) -> None:
    """Has the crates of a repository be those of `rt ci`, which hold each proof and program to its HANDLES."""
    rtlib().Crate, rt().Crate.allowed = rt().Crate, rt().handles_of(top)


def keep_stamps(crate: Any) -> None:
    """Has each crate of this class make its stamp once. The kit's stamp makes those of the libraries below it anew, twice as many with each level. A source
    that changes after that leaves an old stamp, so its library is proved again at the next start."""
    crate.stamp = functools.cache(crate.stamp)
