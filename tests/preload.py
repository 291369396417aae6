"""C code of this folder that is preloaded into the program, to stand between it and the system."""
import os
import subprocess
import sys

from program import ROOT


def make_shim(folder, name):
    """Compiles the file of this name into a library in the folder; without a C compiler that ends the script."""
    compiler = os.environ.get("CC", "cc")
    shim = os.path.join(folder, f"{name}.so")
    source = os.path.join(ROOT, "tests", f"{name}.c")
    try:
        subprocess.run([compiler, "-O1", "-shared", "-fPIC", "-o", shim, source, "-ldl"], check=True)
    except (OSError, subprocess.SubprocessError) as fault:
        sys.exit(f"tests/{name}: the C compiler {compiler} made no shim: {fault}")
    return shim
