"""The library that refuses memory, for the scripts beside this one."""
import os
import subprocess


def compiled(folder):
    """Compiles the library into a folder, and gives its path."""
    source, library = f"{os.path.dirname(os.path.abspath(__file__))}/refuse.c", f"{folder}/refuse.so"
    subprocess.run(["cc", "-O2", "-Wall", "-shared", "-fPIC", "-o", library, source], check=True)
    return library
