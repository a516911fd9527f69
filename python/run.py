"""Runs a module of this folder as a command, by its function `main`: the scripts of bin/ and the checks begin here.

    python3 python/run.py MODULE CALLED WORD..

CALLED is the name by which the script was called. Since python3 looks for modules in the folder of the file that it
runs, all of this folder is found from anywhere, without an installation."""
import importlib
import os
import sys

if __name__ == "__main__":
    module, *sys.argv = sys.argv[1:]
    # What was compiled is kept, which would take longer than a play; where all this is installed nothing is written.
    sys.dont_write_bytecode |= os.path.basename(sys.argv[0]).startswith("fiorrudda-")
    sys.exit(importlib.import_module(module).main())
