"""Databases for tests: files of SQLite, and a PostgreSQL of its own, on loopback, as a user without privileges, with a
password and TLS."""
import atexit
import glob
import os
import random
import secrets
import shutil
import socket
import subprocess
import tempfile
import time

from frame import Skipped

SHARED = []


def missing():
    """What of Debian this machine lacks for a PostgreSQL, or None."""
    if not glob.glob("/usr/lib/postgresql/*/bin/initdb"):
        return "Debian's postgresql is not installed"
    if not shutil.which("openssl"):
        return "Debian's openssl is not installed"
    try:
        import psycopg2
    except ImportError:
        return "Debian's python3-psycopg2 is not installed"
    return None


def new_store(kind, folder):
    """The URL of a database that has nothing yet."""
    if kind == "sqlite":
        return "sqlite:%s/store.db" % folder
    if missing():
        raise Skipped(missing())
    if not SHARED:
        SHARED.append(Cluster())
        atexit.register(SHARED[0].stop)
    name = "d" + secrets.token_hex(4)
    SHARED[0].run_script("CREATE DATABASE " + name)
    return SHARED[0].url(database=name)


def free_port():
    """A port that nobody has, below those that the system gives to clients: a client's own connection could be one of
    those, and meet itself while the server is away."""
    while True:
        port = random.randrange(20_000, 32_000)
        with socket.socket() as tried:
            if tried.connect_ex(("127.0.0.1", port)):
                return port


class Cluster:
    """The server and its folder."""

    def __init__(self):
        self.programs = sorted(glob.glob("/usr/lib/postgresql/*/bin"), key=lambda path: float(path.split("/")[4]))[-1]
        self.folder, self.port, password = tempfile.mkdtemp(prefix="pg"), free_port(), secrets.token_hex(16)
        self.data = os.path.join(self.folder, "data")
        given = os.path.join(self.folder, "password")
        with open(given, "w", encoding="ascii") as file:
            file.write(password)
        if os.getuid() == 0:
            shutil.chown(self.folder, "postgres", "postgres")
            shutil.chown(given, "postgres", "postgres")
        self.run("initdb", "-N", "-D", self.data, "-A", "scram-sha-256", "--pwfile=" + given, "-U", "postgres", "-E", "UTF8", "--no-locale")
        key, certificate = (os.path.join(self.data, "server" + end) for end in (".key", ".crt"))
        self.user("openssl", "req", "-x509", "-newkey", "rsa:2048", "-nodes", "-days", "2", "-subj", "/CN=localhost", "-keyout", key, "-out", certificate)
        self.user("chmod", "600", key)
        with open(os.path.join(self.data, "postgresql.conf"), "a", encoding="ascii") as file:
            file.write("port = %d\nlisten_addresses = '127.0.0.1'\nunix_socket_directories = ''\nssl = on\n" % self.port)
        self.password = password
        self.start()
        self.run_script("CREATE DATABASE registry")

    def user(self, *words):
        """Runs a command as the user who may."""
        before = ["runuser", "-u", "postgres", "--"] if os.getuid() == 0 else []
        subprocess.run([*before, *words], stdin=subprocess.DEVNULL, stdout=subprocess.DEVNULL, stderr=subprocess.DEVNULL, check=True,
                       cwd=self.folder)

    def run(self, name, *words):
        self.user(os.path.join(self.programs, name), *words)

    def run_script(self, text, database="postgres"):
        """Gives SQL to the server."""
        subprocess.run([os.path.join(self.programs, "psql"), "-q", "-v", "ON_ERROR_STOP=1", self.url(database=database)], check=True,
                       input=text.encode(), stdout=subprocess.DEVNULL)

    def url(self, port=None, database="registry"):
        return "postgresql://postgres:%s@127.0.0.1:%d/%s?sslmode=require" % (self.password, port or self.port, database)

    def start(self):
        self.run("pg_ctl", "-D", self.data, "-w", "-l", os.path.join(self.folder, "log"), "start")

    def postmaster(self):
        """The process of the server, or None."""
        try:
            with open(os.path.join(self.data, "postmaster.pid"), encoding="ascii") as file:
                number = int(file.readline())
            return number if os.path.exists("/proc/%d" % number) else None
        except (OSError, ValueError):
            return None

    def start_again(self):
        """Starts it after it was killed. Backends that are left may hold it up."""
        while True:
            try:
                return self.start()
            except subprocess.CalledProcessError:
                time.sleep(0.5)

    def backends(self):
        """The processes that serve the database."""
        found = []
        try:
            with open("/proc/%d/task/%d/children" % ((self.postmaster(),) * 2), encoding="ascii") as file:
                for number in map(int, file.read().split()):
                    with open("/proc/%d/cmdline" % number, encoding="utf-8", errors="replace") as words:
                        found += [number] if " registry " in words.read() else []
        except (OSError, TypeError):
            pass
        return found

    def stop(self):
        if self.postmaster():
            self.run("pg_ctl", "-D", self.data, "-m", "immediate", "-w", "stop")
        shutil.rmtree(self.folder, ignore_errors=True)

    def __enter__(self):
        return self

    def __exit__(self, *_):
        self.stop()

