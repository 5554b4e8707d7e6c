"""The gateway as a WSGI application: which path answers what."""
import base64
import hashlib
import os
import re
import time

from metrics import Answered, metrics_of
from tools import say
from web_answers import FILES_COME, JSON, Answer, Fault, retry_after
from web_asking import Asked
from web_identifiers import drive, history, resolve
from web_operations import Bound, post

HERE = os.path.dirname(os.path.realpath(__file__))
OPTIONS = {"--listen": True, "--submit": True, "--strict": False, "--patience": True, "--submits": True, "--forwarded": False,
           "--metrics": True}
PATIENCE, SUBMITS = 10, 60
# The longest path of a request, as it is decoded.
LONGEST_PATH = 8_192
DRIVER = "/1.0/identifiers/"
# What the environment of a request has, if it came to the second address.
SECOND = "sidetree.second"
READ = ("GET", "HEAD", "OPTIONS")
# Pages of any origin may read answers, and their trust.
SHARED = [("Access-Control-Allow-Origin", "*"),
          ("Access-Control-Expose-Headers", "Sidetree-Entries, Sidetree-Height, Sidetree-Missing, Retry-After")]


def digests(page, element):
    """The sources of a Content-Security-Policy for the elements of a page."""
    return " ".join("'sha256-%s'" % base64.b64encode(hashlib.sha256(text).digest()).decode()
                    for text in re.findall(b"<%s>(.*?)</%s>" % (element, element), page, re.S))


def page():
    """The page, and the policy under which its own script and style run, and nothing else."""
    with open(os.path.join(HERE, "gateway.html"), "rb") as file:
        text = file.read()
    policy = ("default-src 'none'; connect-src 'self'; img-src data:; script-src %s; style-src %s; base-uri 'none'; "
              "form-action 'self'; frame-ancestors 'none'" % (digests(text, b"script"), digests(text, b"style")))
    return Answer(200, text, "text/html; charset=utf-8", [("Content-Security-Policy", policy)])


def program_version():
    """What is installed, or that this is a checkout."""
    try:
        with open(os.path.join(HERE, "version"), encoding="utf-8") as file:
            return file.read().strip()
    except FileNotFoundError:
        return "a checkout"


class Gateway:
    """The application. Its words are those of the tool."""

    def __init__(self, words):
        patience = words.number("--patience", PATIENCE)
        self.asked, submit = Asked(words.plain[0], patience), words.options.get("--submit")
        self.submitted = Asked(submit, patience) if submit else None
        self.strict, self.forwarded = "--strict" in words.options, "--forwarded" in words.options
        self.bound, self.answered = Bound(words.number("--submits", SUBMITS)), Answered()
        self.page, self.program = page(), program_version()
        self.state_is_apart = "--metrics" in words.options

    def __call__(self, environ, start):
        began, method, path = time.monotonic(), environ["REQUEST_METHOD"], environ.get("PATH_INFO", "")
        try:
            answer = self.answer(method, path, environ)
        except Fault as fault:
            answer = fault.answer(path.startswith(DRIVER))
        except Exception as fault:
            say("%s %.100r: a fault of this tool: %s: %s" % (method, path, type(fault).__name__, fault))
            answer = Fault(500, "internalError", "a fault of the gateway").answer(path.startswith(DRIVER))
        self.answered.note(answer.status, time.monotonic() - began)
        return answer.give(start, method == "HEAD", [] if path == "/operations" else SHARED)

    def answer(self, method, path, environ):
        """The answer of a path, or a fault."""
        if len(path) > LONGEST_PATH:
            raise Fault(414, "tooLong", "a path has at most %d bytes" % LONGEST_PATH)
        if self.state_is_apart and (path in STATE) != (SECOND in environ):
            raise Fault(404, "noPath", "there is no such path here")
        takes = ("POST", "OPTIONS") if path == "/operations" else READ
        if method not in takes:
            raise Fault(405, "methodNotAllowed", "this path takes %s" % ", ".join(takes), [("Allow", ", ".join(takes))])
        if method == "OPTIONS":
            allowed = [] if path == "/operations" else [("Access-Control-Allow-Methods", "GET, HEAD"),
                                                        ("Access-Control-Allow-Headers", "Accept")]
            return Answer(204, b"", headers=[("Allow", ", ".join(takes)), *allowed])
        if path == "/operations":
            return post(self, environ)
        for before, give in ((DRIVER, drive), ("/identifiers/", resolve), ("/history/", history)):
            if path.startswith(before):
                return give(self, path[len(before):], environ)
        if path == "/":
            return self.page
        if path == "/version":
            return self.version()
        if path in STATE:
            return STATE[path](self)
        raise Fault(404, "noPath", "there is no such path here")

    def address(self, environ):
        """The address of a client, as a proxy in front tells it, if there is one."""
        told = environ.get("HTTP_X_FORWARDED_FOR", "").rpartition(",")[2].strip() if self.forwarded else ""
        return told or environ.get("REMOTE_ADDR", "")

    def version(self):
        """Sidetree's version, the program's, and that of the limits at the last entry."""
        limits = dict(self.asked.health())["version"]
        return Answer(200, [{"name": "sidetree", "version": "1.0.0"}, {"name": "program", "version": self.program},
                            {"name": "limits", "version": limits}])

    def health(self):
        """The keeper's health. It is bad also while files are missing, if that is asked for."""
        pairs = self.asked.health()
        told = {name: int(value) if value.isdigit() else None for name, value in pairs}
        bad = self.strict and told["wanted"]
        return Answer(503 if bad else 200, told, JSON, retry_after(FILES_COME) if bad else [])

    def metrics(self):
        """The health, if the node answers, and the answers so far."""
        try:
            text = metrics_of(self.asked.health())
        except Fault:
            text = ""
        return Answer(200, (text + self.answered.text()).encode(), "text/plain; version=0.0.4; charset=utf-8")


STATE = {"/health": Gateway.health, "/metrics": Gateway.metrics}
