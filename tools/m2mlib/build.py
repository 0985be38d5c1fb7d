"""The proved library as a shared object, brought up to date before each use.

tools/shared-library looks every time whether a source has changed (that takes a second), so a changed source
never runs an old library.
"""

import os
import shutil
import subprocess

from .files import ROOT
from .trouble import Trouble

MAKER = os.path.join(ROOT, "tools", "shared-library")
LIBRARY = os.path.join(ROOT, "target", "m2m", "libm2m.so")


def library():
    """The path of the shared object, up to date; what is proved on the way is said on standard error."""
    if not shutil.which("rt"):
        raise Trouble("rt is not to be found: settling needs the Rattle kit on the PATH")
    try:
        made = subprocess.run([MAKER], stdin=subprocess.DEVNULL, stdout=subprocess.DEVNULL, check=False)
    except OSError as error:
        raise Trouble(f"{MAKER}: {error.strerror}") from None
    if made.returncode:
        raise Trouble(f"the proved library can't be made: {MAKER} ended with status {made.returncode}")
    return LIBRARY
