"""How a gateway asks a keeper: its connections, and what becomes of their faults."""
import queue

from client import Kept
from web_answers import NODE_STARTS, Fault, retry_after

# How many connections to a socket one process has at most. The node answers one line at a time.
CONNECTIONS = 32


class Asked:
    """Connections to a keeper's socket. A thread takes the place of one, and gives it back."""

    def __init__(self, path, patience):
        self.path, self.patience, self.free = path, patience, queue.LifoQueue()
        for _ in range(CONNECTIONS):
            self.free.put(None)

    def use(self, question, once=False):
        """What a question gives, a function of a connection. If the connection has broken since it was used, another one is
        asked. So what changes something is to be asked `once`, on a new connection."""
        try:
            node = self.free.get(timeout=self.patience)
        except queue.Empty:
            raise self.late() from None
        if once and node:
            node.end()
            node = None
        try:
            while True:
                is_new, node = node is None, node or Kept(self.path, self.patience)
                try:
                    return question(node)
                except BaseException as fault:
                    node.end()
                    node = None
                    if is_new or isinstance(fault, TimeoutError) or not isinstance(fault, OSError):
                        raise
        except TimeoutError:
            raise self.late() from None
        except OSError as fault:
            raise Fault(503, "nodeGone", "the node does not answer: %s" % fault, retry_after(NODE_STARTS)) from None
        finally:
            self.free.put(node)

    def late(self):
        return Fault(504, "nodeLate", "the node has not answered within %d seconds" % self.patience)

    def health(self):
        """The pairs of `health`."""
        words = self.use(lambda node: node.expect("health", "health")).split(" ")
        return list(zip(words[::2], words[1::2]))
