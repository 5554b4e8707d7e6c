"""What all tools share: how they read their words, and how they end.

A tool ends with 64 if its words are wrong, with 70 after a fault of its own, with 130 after Ctrl-C, and else with a
status that its help lists.
"""
import os
import re
import signal
import socket
import sys
import traceback

USAGE, FAULT, INTERRUPTED = 64, 70, 130
# Options that a tool passes on to the program, in the order in which the program takes them.
NODE_OPTIONS = ("--limit", "--v2-at")


class Stopped(BaseException):
    """SIGTERM or SIGINT, which ask for an end. It is no Exception: a server would take it for the fault of a request."""


def stop_on_signals():
    """From now on the first of these signals is raised as `Stopped`; later ones are passed over."""
    def stop(*_):
        for number in (signal.SIGTERM, signal.SIGINT):
            signal.signal(number, signal.SIG_IGN)
        raise Stopped
    for number in (signal.SIGTERM, signal.SIGINT):
        signal.signal(number, stop)


class WrongWords(Exception):
    """Words that a tool does not take."""


class Words:
    """The words of a command line: the plain ones in order, the tool's own options, and the node's."""

    def __init__(self, given, least, most, options):
        self.plain, self.options, found = [], {}, {}
        for word in given:
            name, equals, value = word.partition("=")
            if not word.startswith("--"):
                self.plain.append(word)
            elif name in NODE_OPTIONS and equals:
                found[name] = word
            elif name not in options:
                raise WrongWords("there is no option %s" % name)
            elif bool(equals) != options[name]:
                raise WrongWords("%s takes %s" % (name, "its value after a '='" if options[name] else "no value"))
            else:
                self.options[name] = value if equals else True
        if not least <= len(self.plain) <= most:
            raise WrongWords("it was given %d words, and takes %s" % (
                len(self.plain), least if least == most else "%d to %d" % (least, most)))
        self.node = [found[name] for name in NODE_OPTIONS if name in found]

    def number(self, name, otherwise=None):
        """The value of an option as a number above 0."""
        value = self.options.get(name)
        if value is None:
            return otherwise
        if not value.isascii() or not value.isdigit() or int(value) == 0:
            raise WrongWords("%s=%s is no number above 0" % (name, value))
        return int(value)


def say(text):
    """Writes a line to standard error, after the tool's name."""
    print("%s: %s" % (name_of_tool(), text), file=sys.stderr, flush=True)


def tell_manager(text, patience=5):
    """Tells whoever has started this tool of a state, if systemd or `registry up` listens."""
    address = os.environ.get("NOTIFY_SOCKET")
    if address:
        with socket.socket(socket.AF_UNIX, socket.SOCK_DGRAM) as there:
            there.settimeout(patience)
            try:
                there.sendto(text.encode(), "\0" + address[1:] if address.startswith("@") else address)
            except BlockingIOError:
                pass
            except OSError as error:
                say("the service manager can't be told: %s" % error)


def beat():
    """Says that this tool does not hang."""
    # A manager that has stopped holds nobody up.
    tell_manager("WATCHDOG=1", 0)


def name_of_tool():
    return os.path.basename(sys.argv[0]).removeprefix("sidetree-")


def run(main, document, least, most, options=()):
    """Runs a tool over the words of its command line, and ends with its status. `options` has the names of its
    options: a mapping, true for those that have a value."""
    options = dict(options)
    if "--help" in sys.argv[1:]:
        # Installed, a tool has another name than here.
        print(re.sub(r"(?m)^(usage: | {7})%s\b" % name_of_tool(), lambda found: found[1] + os.path.basename(sys.argv[0]), document.strip()))
        sys.exit(0)
    try:
        status = main(Words(sys.argv[1:], least, most, options))
        sys.stdout.flush()
    except WrongWords as wrong:
        say("%s (%s --help shows the usage)" % (wrong, name_of_tool()))
        status = USAGE
    except KeyboardInterrupt:
        status = INTERRUPTED
    except BrokenPipeError:
        # Whoever read the output has gone. Nothing is written at the end of the process any more.
        os.dup2(os.open(os.devnull, os.O_WRONLY), 1)
        status = 141
    except Exception as fault:
        traceback.print_exc()
        say("a fault of this tool: %s" % fault)
        status = FAULT
    sys.exit(status)
