"""What the scripts of this folder share."""
import importlib.machinery
import importlib.util
import os
import sys

ROOT = os.path.dirname(os.path.dirname(os.path.realpath(__file__)))


def script(name):
    """Returns a script of this folder as a module."""
    loader = importlib.machinery.SourceFileLoader(name, f"{ROOT}/launcher/{name}")
    module = importlib.util.module_from_spec(importlib.util.spec_from_loader(name, loader))
    loader.exec_module(module)
    return module


def read(name):
    """Returns the text of a file of the repository, or None if it is not there."""
    if not os.path.exists(f"{ROOT}/{name}"):
        return None
    with open(f"{ROOT}/{name}", encoding="utf-8") as it:
        return it.read()


def write_or_check(texts, maker):
    """Writes texts to files of the repository. With --check it writes nothing, and names the files that differ. Returns the status."""
    if "--check" not in sys.argv[1:]:
        for name, text in texts.items():
            os.makedirs(os.path.dirname(f"{ROOT}/{name}"), exist_ok=True)
            with open(f"{ROOT}/{name}", "w", encoding="utf-8") as it:
                it.write(text)
        return 0
    differ = [name for name, text in texts.items() if read(name) != text]
    for name in differ:
        print(f"{name} is not what {maker} would write: run {maker}, and commit what it wrote")
    return 1 if differ else 0
