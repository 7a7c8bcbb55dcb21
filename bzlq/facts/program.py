"""The program of dist/ in a clone: unpacks it where ./bq does, or in the user's cache where the clone can't be written to; gives its path."""
import hashlib
import lzma
import os
import subprocess

ROOT = os.path.dirname(os.path.dirname(os.path.dirname(os.path.realpath(__file__))))
PACKED = "bq-x86_64-linux.xz"
# what to do without a toolchain
WAY_OUT = f"`mkdir -p out; xz -dc dist/{PACKED} > out/bq; chmod +x out/bq` in {ROOT} unpacks that one, and BZLQ_BQ={ROOT}/out/bq names it"


class NotUnpacked(Exception):
    """Why there is no program; the message says so."""


def unpack():
    """The path of the program."""
    with open(f"{ROOT}/dist/SHA256SUMS", encoding="ascii") as file:
        sums = dict(line.split()[::-1] for line in file)
    with open(f"{ROOT}/dist/{PACKED}", "rb") as file:
        packed = file.read()
    if os.uname()[0] != "Linux" or os.uname()[4] != "x86_64":
        raise NotUnpacked("the program in dist/ is for Linux on x86-64 alone")
    if sums.get(PACKED) != hashlib.sha256(packed).hexdigest():
        raise NotUnpacked(f"dist/{PACKED} isn't what dist/SHA256SUMS says (`git checkout dist` restores it)")
    if other := differing():
        raise NotUnpacked(f"no bq was built of these source files, and the program in dist/ is of others ({other} differs): `./bq` builds one, which "
                          f"takes the toolchain; or {WAY_OUT}")
    own = f"{ROOT}/crates/bq/out/dist"
    try:
        return put(packed, own)
    except OSError:
        from bzlq.cache.folder import cache, own as own_folder
        return put(packed, own_folder(os.path.join(cache(), f"bq-{sums[PACKED][:16]}")))


def differing():
    """A source file that isn't as dist/SOURCES says; nothing where they are all as they were."""
    said = subprocess.run([f"{ROOT}/dev/sources"], capture_output=True, check=False)
    with open(f"{ROOT}/dist/SOURCES", "rb") as file:
        changed = set(file.read().splitlines()) ^ set(said.stdout.splitlines())
    return min((line.split(b" ", 2)[-1].decode("utf-8", "replace") for line in changed), default="")


def put(packed, folder):
    """Unpacks the program into a folder, where it gets its name once it is whole."""
    os.makedirs(folder, exist_ok=True)
    path = f"{folder}/bq"
    if not os.path.exists(path):
        new = f"{path}.{os.getpid()}"
        with open(new, "wb") as file:
            file.write(lzma.decompress(packed))
        os.chmod(new, 0o755)
        os.rename(new, path)
    return path
