"""Loads the commands of cheri_cap_gdb.py when gdb opens a program that is linked with the shared library.

./install puts this file where gdb searches for it by the path of the library, below PREFIX/share/gdb/auto-load."""

import os
import sys

scripts = __file__.partition("/share/gdb/auto-load/")[0] + "/share/cheri-cap"
if os.path.exists(f"{scripts}/cheri_cap_gdb.py"):
    sys.path.insert(1, scripts)
    import cheri_cap_gdb  # noqa: F401
