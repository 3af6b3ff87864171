"""The work file of komd-import: what was read of a club, in tables of sqlite3, until the store can be written."""
import os
import sqlite3

from tool import Trouble

# Nobody else uses the file. A stop of the machine may lose the last steps, and loses no half of one. Pages take 64 MB of memory.
PRAGMAS = ("locking_mode = EXCLUSIVE", "journal_mode = WAL", "synchronous = NORMAL", "cache_size = -64000", "temp_store = FILE")
TABLES = """
CREATE TABLE state (name TEXT PRIMARY KEY, value);
CREATE TABLE told (what TEXT PRIMARY KEY, count INTEGER);
CREATE TABLE conference (
    number INTEGER PRIMARY KEY, name BLOB, kind INTEGER, made INTEGER, last INTEGER, creator INTEGER, presentation INTEGER,
    supervisor INTEGER, submitters INTEGER, super_conference INTEGER, motd INTEGER, nice INTEGER, keep INTEGER, expire INTEGER,
    highest INTEGER);
CREATE TABLE person (
    number INTEGER PRIMARY KEY, user BLOB, privileges INTEGER, flags INTEGER, login INTEGER, area INTEGER, present INTEGER,
    sessions INTEGER, lines INTEGER, bytes INTEGER, read INTEGER, fetched INTEGER, persons INTEGER, conferences INTEGER,
    highest INTEGER, marks INTEGER, password BLOB);
CREATE TABLE text (number INTEGER PRIMARY KEY, author INTEGER, made INTEGER, body BLOB);
CREATE TABLE created (person INTEGER, local INTEGER, text INTEGER, PRIMARY KEY (person, local)) WITHOUT ROWID;
CREATE TABLE recipient (
    text INTEGER, place INTEGER, conference INTEGER, tag INTEGER, local INTEGER, sender INTEGER, at INTEGER,
    PRIMARY KEY (text, place)) WITHOUT ROWID;
CREATE TABLE parent (
    child INTEGER, footnote INTEGER, place INTEGER, parent INTEGER, sender INTEGER, at INTEGER,
    PRIMARY KEY (child, footnote, place)) WITHOUT ROWID;
CREATE TABLE child (
    parent INTEGER, footnote INTEGER, child INTEGER, place INTEGER, PRIMARY KEY (parent, footnote, child)) WITHOUT ROWID;
CREATE TABLE item (
    on_conference INTEGER, object INTEGER, number INTEGER, tag INTEGER, creator INTEGER, made INTEGER, flags INTEGER, inherit INTEGER,
    content BLOB, PRIMARY KEY (on_conference, object, number)) WITHOUT ROWID;
CREATE TABLE membership (
    person INTEGER, conference INTEGER, place INTEGER, priority INTEGER, added_by INTEGER, added_at INTEGER, kind INTEGER,
    read_at INTEGER, ranges BLOB, PRIMARY KEY (person, conference)) WITHOUT ROWID;
CREATE TABLE member (conference INTEGER, place INTEGER, person INTEGER, PRIMARY KEY (conference, place)) WITHOUT ROWID;
CREATE TABLE mark (person INTEGER, text INTEGER, kind INTEGER, PRIMARY KEY (person, text)) WITHOUT ROWID;
"""


class Work:
    """A work file that is open for this process alone. What it is told in one `step` is kept together or not at all."""

    def __init__(self, path):
        self.path = path
        os.close(os.open(path, os.O_RDWR | os.O_CREAT, 0o600))
        self.rows = sqlite3.connect(path, timeout=1, isolation_level=None)
        try:
            for pragma in PRAGMAS:
                self.rows.execute(f"PRAGMA {pragma}")
            self.rows.execute("BEGIN IMMEDIATE")
            self.is_new = not self.rows.execute("SELECT count(*) FROM sqlite_master").fetchone()[0]
            for statement in TABLES.split(";") if self.is_new else []:
                self.rows.execute(statement)
            self.rows.execute("COMMIT")
        except sqlite3.OperationalError as fault:
            raise Trouble(f"{path}: {fault}; does another komd-import use it?") from None

    def step(self):
        """For `with`: a transaction."""
        return Step(self.rows)

    def get(self, name, otherwise=None):
        found = self.rows.execute("SELECT value FROM state WHERE name = ?", (name,)).fetchone()
        return found[0] if found else otherwise

    def set(self, name, value):
        self.rows.execute("INSERT OR REPLACE INTO state VALUES (?, ?)", (name, value))

    def add(self, table, row):
        """A row; in the place of one that has the same key."""
        self.rows.execute(f"INSERT OR REPLACE INTO {table} VALUES ({','.join('?' * len(row))})", row)

    def tell(self, what, count=1):
        """That so many things more are left behind, since komd has nothing like them."""
        if count:
            self.rows.execute("INSERT INTO told VALUES (?, ?) ON CONFLICT DO UPDATE SET count = count + ?", (what, count, count))

    def select(self, query, *values):
        return self.rows.execute(query, values)

    def one(self, query, *values):
        """The first column of the first row."""
        return self.rows.execute(query, values).fetchone()[0]

    def close(self):
        self.rows.close()

    def remove(self):
        self.close()
        os.unlink(self.path)


class Step:
    def __init__(self, rows):
        self.rows = rows

    def __enter__(self):
        self.rows.execute("BEGIN")

    def __exit__(self, kind, *_):
        self.rows.execute("COMMIT" if kind is None else "ROLLBACK")
