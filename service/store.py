"""A store: the ledger and the files of its batches in one database, SQLite's on one machine or PostgreSQL's for many.

    store = open_store("sqlite:PATH")  or  open_store("postgresql://..")

An entry and the files of its batch come in one transaction, and one writer writes at a time: entries have no gaps, nobody
sees them out of order, and whoever sees an entry can have its files. A batch is that of a journal's name and a number. It
is appended once, however often somebody tries. Its anchor string does not name it: a request that came to nothing and was
queued again gives the same string. Each entry has the hash of all entries up to it, so one comparison tells whether two
ledgers agree. After `Away` a call may have been carried out or not.
"""
import contextlib
import os
import select
import time
import urllib.parse

from kept import chained
from ledger import uri_of

# The seconds for which a statement, a lock or an idle transaction may hold others up, and between two looks at SQLite.
PATIENCE, LOOK = 10, 0.05
PAGE = 100
SCHEMA = """CREATE TABLE IF NOT EXISTS entries (position BIGINT PRIMARY KEY, height BIGINT NOT NULL, anchor TEXT NOT NULL,
    chain TEXT NOT NULL, name TEXT NOT NULL, number BIGINT NOT NULL, through BIGINT NOT NULL, made BIGINT NOT NULL,
    UNIQUE (name, number));
CREATE TABLE IF NOT EXISTS files (uri TEXT PRIMARY KEY, bytes {blob} NOT NULL);
CREATE TABLE IF NOT EXISTS store (one INTEGER PRIMARY KEY CHECK (one = 1), id TEXT NOT NULL)"""


class Away(OSError):
    """The database does not answer, or is full: later it may."""


class Halt(Exception):
    """To go on might lose data. An operator must act first."""


class Last:
    """The last batch of a name: its number, how many requests are in all its batches, its anchor string, and how many
    seconds ago it came."""

    def __init__(self, number=0, through=0, anchor=None, age=None):
        self.number, self.through, self.anchor, self.age = number, through, anchor, None if age is None else age / 1000


class Store:
    """What both databases share. An heir has `connect`, `sql`, which gives the rows of a statement, `writing`, a
    transaction that writes alone, `tell` and `changed`."""
    connection = None

    def __init__(self):
        self.files = self

    @contextlib.contextmanager
    def connected(self):
        try:
            if self.connection is None:
                self.connect()
            yield
        except self.errors as error:
            self.close()
            raise Away("the store: %s" % str(error).strip().split("\n")[0]) from None
        except BaseException:
            # A transaction that was left: nothing of it may stay.
            self.close()
            raise

    def close(self):
        connection, self.connection = self.connection, None
        with contextlib.suppress(Exception):
            connection.close()

    def create(self):
        """Makes the tables, if they are not there."""
        with self.connected(), self.writing():
            for statement in SCHEMA.format(blob=self.blob).split(";"):
                self.sql(statement)
            self.sql("INSERT INTO store VALUES (1, ?) ON CONFLICT DO NOTHING", os.urandom(8).hex())

    def join(self, node):
        """Halts if the folder of a kept node has followed another store. Only for a folder that has followed none are the
        tables made: a database that is being put back from a copy is empty for a moment."""
        known = node.expect("store", "store")
        if known == "-":
            self.create()
            known = node.expect("store", "store " + self.id())
        if self.id() != known:
            raise Halt("the store is %s, and this node has followed %s: give the right --store, or, if the ledger is to be "
                       "another one, remove the file `store` from the node's folder" % (self.id(), known))

    def id(self):
        """The store's own name."""
        with self.connected():
            rows = self.sql("SELECT id FROM store") if self.sql(self.has_tables)[0][0] else []
            if not rows:
                raise Halt("the store has no tables, and this node has followed one: put the database back from a copy, or "
                           "give the right --store")
            return rows[0][0]

    def last(self, name):
        with self.connected():
            rows = self.sql("SELECT number, through, anchor, %s - made FROM entries WHERE name = ? ORDER BY number DESC "
                            "LIMIT 1" % self.now, name)
            return Last(*rows[0]) if rows else Last()

    def append(self, name, number, anchor, files):
        """Appends a batch, if it isn't there, and gives its position. Its files are a list of URIs and bytes."""
        for uri, data in files:
            if uri_of(data) != uri:
                raise Halt("the bytes of the file %s have another hash" % uri)
        count, _, core = anchor.partition(".")
        if not files or files[0][0] != core:
            raise Halt("the first file of the batch is not the one that %s names" % anchor)
        with self.connected(), self.writing():
            there = self.sql("SELECT position, anchor FROM entries WHERE name = ? AND number = ?", name, number)
            if there:
                if there[0][1] != anchor:
                    raise Halt("batch %d of %s is another one in the store" % (number, name))
                return there[0][0]
            last = self.last(name)
            if number != last.number + 1:
                raise Halt("batch %d of %s comes after its batch %d" % (number, name, last.number))
            position, chain = (self.sql("SELECT position + 1, chain FROM entries ORDER BY position DESC LIMIT 1")
                               or [(0, bytes(32).hex())])[0]
            for uri, data in files:
                self.sql("INSERT INTO files VALUES (?, ?) ON CONFLICT DO NOTHING", uri, self.bytes_of(data))
            entry = "%d %s" % (position, anchor)
            self.sql("INSERT INTO entries VALUES (?, ?, ?, ?, ?, ?, ?, %s)" % self.now, position, position, anchor,
                     chained(bytes.fromhex(chain), entry.encode()).hex(), name, number, last.through + int(count))
            self.tell()
            return position

    def count(self):
        with self.connected():
            return self.sql("SELECT coalesce(max(position) + 1, 0) FROM entries")[0][0]

    def chain(self, count):
        """The hash of the first entries, or None if there are fewer."""
        with self.connected():
            rows = self.sql("SELECT chain FROM entries WHERE position = ?", count - 1)
            return rows[0][0] if rows else None if count else bytes(32).hex()

    def entries(self, start):
        """Entries from one on, a page of them at most, as 'HEIGHT ANCHORSTRING'."""
        with self.connected():
            return ["%d %s" % row for row in self.sql(
                "SELECT height, anchor FROM entries WHERE position >= ? ORDER BY position LIMIT ?", start, PAGE)]

    def get(self, uri):
        """The bytes of a file, or None if it isn't there."""
        with self.connected():
            rows = self.sql("SELECT bytes FROM files WHERE uri = ?", uri)
            return bytes(rows[0][0]) if rows else None

    def look(self):
        """A database is asked each time."""

    def wait(self, seconds):
        """Waits until there may be a new entry, for so long at most."""
        with self.connected():
            self.changed(seconds)


class Sqlite(Store):
    import sqlite3
    errors, blob, bytes_of = sqlite3.Error, "BLOB", bytes
    now = "CAST((julianday('now') - 2440587.5) * 86400000 AS INTEGER)"
    has_tables = "SELECT count(*) FROM sqlite_master WHERE name = 'store'"

    def __init__(self, path):
        super().__init__()
        self.path, self.seen = path, None

    def create(self):
        with open(self.path, "ab"):
            pass
        super().create()

    def connect(self):
        # A path that is wrong makes no new file. Each connection counts changes anew.
        self.seen = None
        self.connection = self.sqlite3.connect("file:%s?mode=rw" % urllib.parse.quote(self.path), timeout=PATIENCE,
                                               isolation_level=None, uri=True)
        self.sql("PRAGMA journal_mode=WAL")
        self.sql("PRAGMA synchronous=FULL")

    def sql(self, text, *values):
        return self.connection.execute(text, values).fetchall()

    @contextlib.contextmanager
    def writing(self):
        self.sql("BEGIN IMMEDIATE")
        yield
        self.sql("COMMIT")

    def tell(self):
        """Others see it by PRAGMA data_version."""

    def changed(self, seconds):
        until = time.monotonic() + seconds
        while True:
            seen, self.seen = self.seen, self.sql("PRAGMA data_version")[0][0]
            if seen != self.seen or time.monotonic() >= until:
                return
            time.sleep(LOOK)


class Postgres(Store):
    blob, now = "BYTEA", "(extract(epoch FROM clock_timestamp()) * 1000)::bigint"
    has_tables = "SELECT to_regclass('store') IS NOT NULL"

    def __init__(self, url):
        super().__init__()
        try:
            import psycopg2
            import psycopg2.extensions
        except ImportError:
            raise Halt("a store in PostgreSQL needs psycopg2: install Debian's python3-psycopg2") from None
        self.psycopg2, self.url, self.errors, self.bytes_of = psycopg2, url, psycopg2.Error, psycopg2.Binary
        psycopg2.extensions.set_wait_callback(self.wait_for)

    def wait_for(self, connection):
        """Waits for a reply, but not for ever, as psycopg2 would for a backend that is stopped."""
        until = time.monotonic() + 2 * PATIENCE
        while True:
            state = connection.poll()
            if state == self.psycopg2.extensions.POLL_OK:
                return
            streams = ([connection], []) if state == self.psycopg2.extensions.POLL_READ else ([], [connection])
            if not any(select.select(*streams, [], max(0, until - time.monotonic()))):
                # It is not closed here, since psycopg2 would wait again.
                raise self.psycopg2.OperationalError("no answer for %d s" % (2 * PATIENCE))

    def connect(self):
        # A server that only reads may lag behind, and that would look like a reorganisation.
        self.connection = self.psycopg2.connect(self.url, connect_timeout=5, target_session_attrs="read-write")
        self.connection.autocommit = True
        for name in ("statement_timeout", "lock_timeout", "idle_in_transaction_session_timeout"):
            self.sql("SET %s = %d" % (name, PATIENCE * 1000))
        self.sql("SET synchronous_commit = on")
        self.sql("LISTEN entries")

    def sql(self, text, *values):
        with self.connection.cursor() as cursor:
            cursor.execute(text.replace("?", "%s"), values)
            return cursor.fetchall() if cursor.description else []

    @contextlib.contextmanager
    def writing(self):
        self.sql("BEGIN")
        # One writer at a time, so that entries are seen in their order.
        self.sql("SELECT pg_advisory_xact_lock(20261)")
        yield
        self.sql("COMMIT")

    def tell(self):
        self.sql("NOTIFY entries")

    def changed(self, seconds):
        if not self.connection.notifies:
            select.select([self.connection], [], [], seconds)
            self.connection.poll()
        self.connection.notifies.clear()


def open_store(url):
    """A store by its URL, or None if the text is no URL of one. Nothing is asked of it yet."""
    if url.startswith("sqlite:"):
        return Sqlite(url[len("sqlite:"):])
    return Postgres(url) if url.startswith(("postgresql://", "postgres://")) else None
