"""Runs a program of this folder by the name of its module: `bench/gateway --help` is `python3 bench viewd_bench.readers --help`."""
import importlib
import sys

if __name__ == "__main__":
    sys.exit(importlib.import_module(sys.argv[1]).main(sys.argv[2:]))
