"""Has a session over a directory follow it: after each line that reloads, each answer is that of a run over the directory as it is then."""
import os
import shutil
import subprocess

QUERY = "//...:*"
FILES = {"a/BUILD": 'load("//:m.bzl", "srcs")\nfilegroup(name = "a", srcs = srcs)\n', "m.bzl": 'srcs = ["x.c"]\n', "BUILD": "", "a/x.c": "", "docs/long name": ""}
# what is done to the tree before each reload: a path, and its bytes, or None where the file goes
STEPS = (
    ("nothing changes", {}),
    ("a file comes", {"b/BUILD": b'filegroup(name = "b", srcs = glob(["**"]))\n', "b/deep/y.c": b""}),
    ("bytes change, and not how many", {"m.bzl": b'srcs = ["y.c"]\n'}),
    ("a file of bytes that look like commands", {"b/BUILD": b'"""\n=== reload\n=== remove a/BUILD\n"""\nfilegroup(name = "c")'}),
    ("a file that no run reads has other bytes", {"a/x.c": b"int x;\n"}),
    ("a file takes the place of a directory", {"b/BUILD": None, "b/deep/y.c": None, "b": b"", "docs/long name": None}),
    ("a directory takes the place of a file", {"b": None, "b/BUILD": b'filegroup(name = "b")'}),
    ("a package goes", {"b/BUILD": None}),
    ("a fault comes", {"a/BUILD": b"1 // 0\n"}),
    ("a fault goes, and a line has no end", {"a/BUILD": b'filegroup(name = "last")'}),
    ("bytes that are no UTF-8", {"c/BUILD": b'filegroup(name = "\xff")\r\n'}),
)


def change(root, files):
    """Writes these files of a tree, or removes them."""
    for path, content in files.items():
        place = f"{root}/{path}"
        if content is None:
            os.remove(place)
            while not os.listdir(place := os.path.dirname(place)):
                os.rmdir(place)
            continue
        os.makedirs(os.path.dirname(place), exist_ok=True)
        with open(place, "wb") as file:
            file.write(content)


class Session:
    """A session over a directory, which is asked over two pipes."""

    def __init__(self, bench, root):
        words = [bench.program, "--dir", root, "--queries", "-"]
        self.run = subprocess.Popen(words, stdin=subprocess.PIPE, stdout=subprocess.PIPE, stderr=subprocess.DEVNULL)

    def write(self, text):
        """Writes what no block answers."""
        self.run.stdin.write(text)
        self.run.stdin.flush()

    def ask(self, line):
        """The status of the block of a line, its header's text and its lines."""
        self.write(line + b"\n")
        _, status, count, text = self.run.stdout.readline().rstrip(b"\n").split(b" ", 3)
        return int(status), text, b"".join(self.run.stdout.readline() for _ in range(int(count)))

    def end(self):
        """The exit status, at the end of the text."""
        self.run.stdin.close()
        self.run.stdout.close()
        return self.run.wait()


def alone(bench, root, query=QUERY):
    """The status, the answer and the prints and faults of a run over the directory as it is."""
    run = subprocess.run([bench.program, "--dir", root, query], capture_output=True, check=False)
    return run.returncode, run.stdout, run.stderr


def follows(bench, root):
    """Each answer after a reload is that of a run from nothing; before it, that of before."""
    session = Session(bench, root)
    for name, files in STEPS:
        before = alone(bench, root)
        change(root, files)
        bench.compare(f"{name}, before the reload", session.ask(QUERY.encode())[::2], before[:2])
        status, answer, faults = alone(bench, root)
        bench.compare(f"{name}, reload", session.ask(b"=== reload"), (status, b"=== reload", faults))
        bench.compare(f"{name}, after it", session.ask(QUERY.encode())[::2], (status, answer))
    bench.compare("the end", session.end(), status)


def keeps_puts(bench, root):
    """What the text puts stays until the file on the disk changes; what it removes, too; and bytes that it puts are no commands."""
    session, text = Session(bench, root), b'"""\n=== reload\n"""\nfilegroup(name = "put")\n'
    session.write(b"=== put %d a/BUILD\n%s\n=== remove m.bzl\r\n" % (len(text), text))
    bench.compare("a put, reload", session.ask(b"=== reload\r")[0], 0)
    bench.compare("a put", session.ask(b"//a:*")[2], b"//a:BUILD\n//a:put\n")
    change(root, {"d.bzl": b"", "BUILD": b'exports_files(["d.bzl"])\n'})
    bench.compare("a put stays, reload", session.ask(b"=== reload")[0], 0)
    bench.compare("a put stays", session.ask(b"//a:put")[::2], (0, b"//a:put\n"))
    change(root, {"a/BUILD": b'filegroup(name = "disk")\n'})
    bench.compare("a put goes, reload", session.ask(b"=== reload")[0], 0)
    bench.compare("a put goes", session.ask(b"//a:all")[2], b"//a:disk\n")
    bench.compare("a long line", session.ask(b"x" * (1 << 20) + b" === reload")[::2], (2, b"bq: Q1 Syntax\n"))
    bench.compare("after a long line", session.ask(b"//a:all")[2], b"//a:disk\n")
    bench.compare("its end", session.end(), 2)


def refuses(bench, root):
    """A directory that is gone, and comes back, with other files, and with one of any name that was there before."""
    change(root, {"BUILD": b'filegroup(name = "all", srcs = glob(["*"]))\n', "no directory": b"", ".git": b""})
    session, before = Session(bench, root), alone(bench, root)
    os.rename(root, f"{root}.away")
    for _ in range(2):
        bench.compare("no directory, reload", session.ask(b"=== reload"), (2, b"=== reload", b"bq: E4 Bundle\n"))
        bench.compare("no directory", session.ask(QUERY.encode())[::2], before[:2])
    change(f"{root}.away", {"e/BUILD": b'filegroup(name = "e")\n'})
    os.rename(f"{root}.away", root)
    bench.compare("a directory again, reload", session.ask(b"=== reload")[0], 0)
    bench.compare("a directory again", session.ask(QUERY.encode())[::2], alone(bench, root)[:2])
    bench.compare("its end, after a refusal", session.end(), 2)


def check(bench):
    """Runs all."""
    for number, part in enumerate((follows, keeps_puts, refuses)):
        root = f"{bench.room}/tree{number}"
        change(root, {path: text.encode() for path, text in FILES.items()})
        part(bench, root)
        shutil.rmtree(root)
