"""Access to the Python modules of rt, for facts that its commands do not print."""
import importlib.machinery
import importlib.util
import os
import shutil
import sys

# Python must not write bytecode files into the folders of the toolchain.
sys.dont_write_bytecode = True


def rt_module():
    """Returns rt as a Python module, whose function `main` runs the commands of rt."""
    path = os.path.realpath(shutil.which("rt"))
    loader = importlib.machinery.SourceFileLoader("rt", path)
    spec = importlib.util.spec_from_loader("rt", loader)
    module = importlib.util.module_from_spec(spec)
    loader.exec_module(module)
    return module
