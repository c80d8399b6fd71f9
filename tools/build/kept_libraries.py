#!/usr/bin/env python3
"""Sets the libraries of earlier builds aside for the gate, and puts them back behind it.

    tools/build/kept_libraries.py aside|back

At its end `rt ci` puts libraries that it has found back over those that it has proved. The program for arm64 is built over the
latter: they fit one another alone. Libraries that a killed run left aside are put back by the next one.
"""
import glob
import os
import shutil
import sys
from pathlib import Path

sys.dont_write_bytecode = True  # nothing is left beside the scripts
import build_rooms

TOP = str(Path(__file__).resolve().parents[2])
CRATES = f'{TOP}/crates'
KEPT = f'{TOP}/.git/kept_libraries'  # the gate takes no folder of crates anywhere else


def back():
    """Puts each library back that was set aside."""
    for library in glob.glob(f'{KEPT}/*'):
        crate = f'{CRATES}/{os.path.basename(library)}'
        if os.path.isdir(crate):
            os.makedirs(f'{crate}/out', exist_ok=True)
            build_rooms.remove(f'{crate}/{build_rooms.LIBRARY}')
            os.rename(library, f'{crate}/{build_rooms.LIBRARY}')
    shutil.rmtree(KEPT, ignore_errors=True)


def aside():
    """Sets each library aside."""
    back()
    os.mkdir(KEPT)
    for library in glob.glob(f'{CRATES}/*/{build_rooms.LIBRARY}'):
        crate = os.path.basename(os.path.dirname(os.path.dirname(library)))
        os.rename(library, f'{KEPT}/{crate}')


if __name__ == '__main__':
    if sys.argv[1:] not in (['aside'], ['back']):
        sys.exit(__doc__)
    if os.path.isdir(f'{TOP}/.git'):
        aside() if sys.argv[1] == 'aside' else back()
