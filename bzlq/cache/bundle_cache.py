"""What bzlq stubs makes of a bundle, kept in the cache: takes the file of a bundle, writes that of it with an overlay, gives the warnings.

A folder for each bundle, by its sum and the version of the scripts. It is made beside and then renamed, so what is there is whole; those
that were asked for last are kept.
"""
import contextlib
import hashlib
import os
import shutil

from bzlq.cache.folder import cache, open_own, own, room
from bzlq.cache.store import version
from bzlq.overlay.assembly import make_overlay

MOST = 8


def with_overlay(bundle, program, to):
    """Writes the bundle with its overlay to a path, and gives the warnings."""
    with open(bundle, "rb") as file:
        key = hashlib.sha256(file.read() + version(program).encode()).hexdigest()[:32]
    folder = own(os.path.join(cache(), "bundles"))
    place = os.path.join(folder, key)
    if not os.path.isdir(place):
        make(bundle, program, folder, place)
    os.utime(place)
    with open_own(f"{place}/bundle", "rb") as file, open(to, "wb") as copy:
        shutil.copyfileobj(file, copy)
    with open_own(f"{place}/warnings", "r") as file:
        return file.read().splitlines()


def make(bundle, program, folder, place):
    """Makes the overlay and the bundle beside, and puts them into their place."""
    with room(folder, "new-") as around:
        new = f"{around}/{os.path.basename(place)}"
        os.mkdir(new, 0o700)
        warnings, said, _ = make_overlay(bundle, program, new)
        with open(f"{new}/warnings", "w", encoding="utf-8") as file:
            file.write("".join(f"{it}\n" for it in [*warnings, *said]))
        shutil.rmtree(f"{new}/overlay")
        # (another run may have been quicker)
        with contextlib.suppress(OSError):
            os.rename(new, place)
    remove_old(folder)


def remove_old(folder):
    """Removes those that were asked for longest ago."""
    with os.scandir(folder) as entries:
        found = sorted((entry for entry in entries if not entry.name.startswith("new-")), key=lambda it: it.stat().st_mtime)
    for entry in found[:-MOST]:
        shutil.rmtree(entry.path, ignore_errors=True)
