"""A program of crates/ that the gate has proved and built, and the library that counts or refuses its allocations."""
import os
import subprocess
import sys

REPOSITORY = os.path.dirname(os.path.dirname(os.path.abspath(__file__)))
TOOL = os.path.basename(sys.argv[0])


def proved_program(name):
    """Returns the path of the program, built from the sources that are there: the one that the gate has proved and built, where its
    sources are still the same. Else it is proved and built first, which takes a while."""
    program = os.path.join(REPOSITORY, "crates", name, "out", name)
    sources = subprocess.check_output([".ci/sources", name], cwd=REPOSITORY)
    noted = f"{program}.sources"
    is_built = os.path.exists(program) and os.path.exists(noted) and open(noted, "rb").read() == sources
    if not is_built:
        print(f"{TOOL}: proving and building the program: some minutes", file=sys.stderr)
        folder = os.path.join(REPOSITORY, "crates", name)
        made = subprocess.run(["rt", "run"], cwd=folder, stdin=subprocess.DEVNULL, capture_output=True, text=True)
        if made.returncode:
            sys.exit("\n".join((made.stdout + made.stderr).splitlines()[-20:] + [f"{TOOL}: the program is not proved, so it was not built"]))
        with open(noted, "wb") as file:
            file.write(sources)
    return program


def allocation_library(folder):
    """Compiles .ci/refuse_allocation.c into a folder. Returns the path of the library."""
    library = f"{folder}/refuse_allocation.so"
    subprocess.run(["cc", "-shared", "-fPIC", "-O2", "-o", library, os.path.join(REPOSITORY, ".ci", "refuse_allocation.c")], check=True)
    return library
