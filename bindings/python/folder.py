#!/usr/bin/env python3
"""bindings/python/folder.py PREFIX prints the folder below PREFIX in which this python3 looks for modules or, where it
looks in none, the usual one there, which PYTHONPATH then has to name."""
import site
import sys

prefix = sys.argv[1].rstrip("/")
looked = [folder for folder in (*site.getsitepackages(), site.getusersitepackages()) if folder.startswith(f"{prefix}/lib/")]
print(looked[0] if looked else f"{prefix}/lib/python{sys.version_info[0]}.{sys.version_info[1]}/site-packages")
