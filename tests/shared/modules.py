"""Other tests as modules: those without the ending .py, or in another folder."""
import importlib.machinery
import importlib.util

from . import ROOT


def module(name, *path):
    loader = importlib.machinery.SourceFileLoader(name, str(ROOT.joinpath(*path)))
    loaded = importlib.util.module_from_spec(importlib.util.spec_from_loader(name, loader))
    loader.exec_module(loaded)
    return loaded
