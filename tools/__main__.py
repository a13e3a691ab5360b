"""Runs a program of this folder by the name of its module: `.ci/words --count` is `python3 tools viewd_ci.words --count`."""
import importlib
import sys

if __name__ == "__main__":
    sys.exit(importlib.import_module(sys.argv[1]).main(sys.argv[2:]))
