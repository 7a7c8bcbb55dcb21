"""The facts of the parts of a workspace, joined in a database of SQLite: takes sections, gives the whole graph, which other programs may read.

A target depends on each label that it names and that is a target of some part. So no edge between two parts is lost, and what a run over the whole
has to say of labels that name nothing (F79) is what a part says of those that no part has.
"""
import sqlite3

from bzlq.facts.sections import Marks, fault_key, fault_line, is_build, json_of
from bzlq.workspace.files import Refused

TABLES = """
PRAGMA journal_mode = OFF; PRAGMA synchronous = OFF; PRAGMA cache_size = -65536;
CREATE TABLE target (id INTEGER PRIMARY KEY, label TEXT, package TEXT, kind TEXT, file TEXT, line INTEGER, attributes TEXT);
CREATE TABLE edge (src INTEGER, dst INTEGER, PRIMARY KEY (src, dst)) WITHOUT ROWID;
CREATE TABLE module (label TEXT PRIMARY KEY, file TEXT, loads TEXT) WITHOUT ROWID;
CREATE TABLE fault (label TEXT, line INTEGER, number INTEGER, name TEXT, detail TEXT, file TEXT, PRIMARY KEY (label, line, number, detail)) WITHOUT ROWID;
CREATE TABLE package (label TEXT PRIMARY KEY) WITHOUT ROWID;
CREATE TABLE lacking (line TEXT);
"""
# What is looked up in what was put in. `edge_back` comes last: by it a database is known to be whole.
INDICES = """
CREATE UNIQUE INDEX target_of_label ON target (label);
CREATE INDEX target_of_package ON target (package);
DELETE FROM fault WHERE number = 79 AND detail IN (SELECT label FROM target);
CREATE INDEX edge_back ON edge (dst, src);
"""
HEAD = b"SQLite format 3\0"


class Database:
    """A database that is open."""

    def __init__(self, connection):
        self.connection = connection
        connection.text_factory = lambda text: text.decode("utf-8", "surrogateescape")

    def rows(self, sql, *values):
        """The rows of a statement."""
        return self.connection.execute(sql, values)

    def lacking(self):
        """The lines that say what isn't there."""
        return [it for it, in self.rows("SELECT line FROM lacking")]

    def faults(self):
        """The fault lines, as a run over the whole writes them."""
        found = [dict(zip(("label", "line", "fault", "name", "detail"), row)) for row in self.rows("SELECT label, line, 'F' || number, name, detail FROM fault")]
        return [fault_line(it) for it in sorted(found, key=fault_key)]


class Maker:
    """What is put into a database, section by section."""

    def __init__(self, connection):
        self.connection, self.marks = connection, Marks()
        self.numbers, self.declared = {}, set()

    def add(self, section):
        """Adds a section."""
        self.marks.add(section)
        insert = self.connection.executemany
        insert("INSERT INTO target VALUES (?, ?, ?, ?, ?, ?, ?)", filter(None, (self.row(it, section.place) for it in section.targets)))
        # (the targets of a section have their numbers by now, mostly one after another, so the table grows at its end)
        insert("INSERT OR IGNORE INTO edge VALUES (?, ?)", self.edges(section.targets))
        for it in section.modules:
            self.add_module(it, section.place)
        insert("INSERT OR IGNORE INTO fault VALUES (?, ?, ?, ?, CAST(? AS TEXT), ?)", (
            (it["label"], it["line"], int(it["fault"][1:]), it["name"], it["detail"].encode("utf-8", "surrogateescape"), it["file"]) for it in section.faults))

    def edges(self, targets):
        """What targets name, as numbers; no target names itself by that."""
        numbers, number = self.numbers, self.number
        for it in targets:
            source = numbers[it["target"]]
            for name in it.get("names", ()):
                if (found := number(name)) != source:
                    yield source, found

    def number(self, label):
        """The number of a label."""
        return self.numbers.setdefault(label, len(self.numbers))

    def row(self, it, place):
        """The row of a target; nothing where it is there already, as that of a file of facts that was given twice."""
        number, label = self.number(it["target"]), it["target"]
        row = number, label, label[:label.index(":")], it["kind"], it["file"], it.get("line"), it.get("attributes", "{}")
        if number not in self.declared:
            self.declared.add(number)
            return row
        if self.connection.execute("SELECT * FROM target WHERE id = ?", (number,)).fetchone() != row:
            raise Refused(f"{place}: the target {label} is in another part too, and isn't the same there")
        return None

    def add_module(self, it, place):
        """Adds a module. A .bzl file is in each part that loads it, and says the same in each."""
        row = it["module"], it["file"], json_of(it["loads"])
        if not self.connection.execute("INSERT OR IGNORE INTO module VALUES (?, ?, ?)", row).rowcount:
            if self.connection.execute("SELECT * FROM module WHERE label = ?", row[:1]).fetchone() != row:
                raise Refused(f"{place}: the file {it['module']} is in another part too, and doesn't load the same there")
        elif is_build(it["module"]):
            self.connection.execute("INSERT INTO package VALUES (?)", (it["module"][:it["module"].index(":")],))

    def finish(self):
        """Leaves the edges that lead to targets, and notes what isn't there."""
        if loose := [it for it in self.numbers.values() if it not in self.declared]:
            self.connection.execute("CREATE TEMP TABLE loose (id INTEGER PRIMARY KEY)")
            self.connection.executemany("INSERT INTO loose VALUES (?)", ((it,) for it in loose))
            self.connection.execute("DELETE FROM edge WHERE dst IN (SELECT id FROM loose)")
        self.connection.executemany("INSERT INTO lacking VALUES (?)", ((it,) for it in self.marks.lacking()))
        self.connection.commit()
        self.connection.executescript(INDICES)


def made(sections, path=":memory:"):
    """The database of these sections."""
    connection = sqlite3.connect(path)
    connection.executescript(TABLES)
    maker = Maker(connection)
    for it in sections:
        maker.add(it)
    maker.finish()
    return Database(connection)


def is_database(path):
    """Whether a file is a database."""
    if path == "-":
        return False
    with open(path, "rb") as file:
        return file.read(len(HEAD)) == HEAD


def opened(path):
    """A database that was made before."""
    connection = sqlite3.connect(f"file:{path.replace('%', '%25').replace('?', '%3f').replace('#', '%23')}?mode=ro", uri=True)
    try:
        # (this index is made last)
        connection.execute("SELECT src, dst FROM edge INDEXED BY edge_back LIMIT 1")
        connection.execute("SELECT line FROM lacking LIMIT 1")
    except sqlite3.DatabaseError:
        raise Refused(f"{path} is a database that bzlq join hasn't made, or not to its end") from None
    return Database(connection)
