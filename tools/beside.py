"""The tools of this folder as modules. They have no ending, so `import` does not find them."""
import importlib.machinery
import importlib.util
import pathlib

HERE = pathlib.Path(__file__).resolve().parent


def tool(name):
    """Another tool of this folder, as a module."""
    loader = importlib.machinery.SourceFileLoader(name, str(HERE / name))
    loaded = importlib.util.module_from_spec(importlib.util.spec_from_loader(name, loader))
    loader.exec_module(loaded)
    return loaded
