"""The modules and the scripts of vectors/, none of which knows the library."""
import pathlib
import sys
from importlib.machinery import SourceFileLoader
from importlib.util import module_from_spec, spec_from_loader

TOP = pathlib.Path(__file__).resolve().parent.parent
VECTORS = TOP / "vectors"

sys.dont_write_bytecode = True
sys.path.append(str(VECTORS))


def script(name):
    """A script that has no ending, as a module."""
    loader = SourceFileLoader(name, str(VECTORS / name))
    module = module_from_spec(spec_from_loader(name, loader))
    loader.exec_module(module)
    return module


make = script("make")
compare_batches = script("compare_batches")
