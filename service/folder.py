"""What a kept node's folder has beside the journal: small files, each written whole and made durable."""
import os


class Folder:
    """`name` is the journal's own, so that its batches are known as its. `store` is the name of the store that the node
    has followed. `held` says who has asked the keeper to take no requests, and why."""

    def __init__(self, path):
        self.path = path

    def read(self, name):
        """The text of a file, or an empty one if it isn't there."""
        try:
            with open(os.path.join(self.path, name), encoding="utf-8") as file:
                return file.read()
        except FileNotFoundError:
            return ""

    def write(self, name, text):
        path = os.path.join(self.path, name)
        with open(path + ".new", "w", encoding="utf-8") as file:
            file.write(text)
            file.flush()
            os.fsync(file.fileno())
        os.replace(path + ".new", path)
        there = os.open(self.path, os.O_RDONLY)
        try:
            os.fsync(there)
        finally:
            os.close(there)

    def name(self):
        """The journal's name, which is made at the first start."""
        if not self.read("name"):
            self.write("name", os.urandom(8).hex())
        return self.read("name")

    def held(self):
        """Why requests are not taken, by who has said so."""
        return dict(line.split(" ", 1) for line in self.read("held").splitlines())

    def hold(self, who, cause):
        """Notes a cause, or that there is none any more. Gives the causes that are left."""
        held = self.held()
        if held.get(who, "") != cause:
            held.pop(who, None)
            held.update({who: cause} if cause else {})
            self.write("held", "".join("%s %s\n" % pair for pair in held.items()))
        return held
