"""Plain values in a file of the cache: takes its path and the version of the scripts, writes them, and gives them again."""
import marshal
import os

from bzlq.cache.folder import open_own


def kept_at(path, version):
    """What a file of the cache keeps for this version of the scripts; nothing where it isn't whole."""
    try:
        with open_own(path, "rb") as file:
            before, kept = marshal.load(file)
    except (OSError, ValueError, EOFError, TypeError):
        return None
    return kept if before == version else None


def keep_at(path, version, kept):
    """Keeps it; what is there is whole at each moment."""
    new = f"{path}.new"
    if os.path.lexists(new):
        os.remove(new)
    with open_own(new, "wb") as file:
        marshal.dump((version, kept), file)
    os.rename(new, path)
