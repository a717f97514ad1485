"""Where the program is that is measured and tried."""
import os
import shutil
import subprocess
import sys

REPOSITORY = os.path.dirname(os.path.dirname(os.path.abspath(__file__)))


def planar_program():
    """The program that FEZDROK_PLANAR names, or else the proved one of the repository, which is built if it has to be. Where there
    is none, this ends with status 2 and a line that says so."""
    named = os.environ.get("FEZDROK_PLANAR")
    if not named:
        found = subprocess.run([os.path.join(REPOSITORY, ".ci", "program")], stdout=subprocess.PIPE, text=True)
        return found.stdout.strip() if found.returncode == 0 else sys.exit(2)
    if not shutil.which(named):
        print(f"{os.path.basename(sys.argv[0])}: there is no program {named}", file=sys.stderr)
        sys.exit(2)
    return named
