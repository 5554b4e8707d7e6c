"""The gateway's page in a browser without a screen, over identifiers that were changed, are unknown, or are hostile."""
import os
import re
import shutil
import subprocess
from html.parser import HTMLParser
from urllib.parse import quote

from frame import LONGEST, TOP, Skipped, asked, case, holds, same, tool
from ledger import base64url, uri_of
from plain_json import canonical
from resolves import FIRST, NOBODY, SECOND
from web import KeptWeb

BROWSERS = ("chromium", "chromium-browser", "google-chrome")
# What the services of a hostile identifier hold: their types, and their endpoints.
MARKS = "\u202egnp.exe\u2066\u200b"
ENDPOINTS = ["<script>document.title='taken'</script>", "<img src=x onerror=\"document.title='taken'\">", "javascript:document.title='taken'",
             "https://example.com/\"onmouseover=\"document.title='taken'", "data:text/html,<script>1</script>", "https://a.example/" + MARKS,
             "JAVASCRIPT://example.com/%0adocument.title='taken'", "' \" ` & &lt; ${1} \\u0000 \n\t"]


class Elements(HTMLParser):
    """The elements of a page: their attributes by name, and the text of all but scripts and styles."""

    def __init__(self, text):
        super().__init__(convert_charrefs=True)
        self.found, self.text, self.inside = [], [], None
        self.feed(text)

    def handle_starttag(self, tag, attributes):
        self.found.append((tag, dict(attributes)))
        self.inside = tag

    def handle_endtag(self, tag):
        self.inside = None

    def handle_data(self, data):
        if self.inside not in ("script", "style"):
            self.text.append(data)

    def all(self, tag):
        return [attributes for name, attributes in self.found if name == tag]

    def said(self):
        return " ".join(" ".join(self.text).split())


def browser():
    name = next(filter(None, map(shutil.which, BROWSERS)), None)
    if not name:
        raise Skipped("no chromium is there")
    return name


def browse(folder, url, *options):
    """What a browser prints of a page, after its scripts have run."""
    words = [browser(), "--headless", "--disable-gpu", "--no-first-run", "--user-data-dir=" + os.path.join(folder, "browser"),
             "--virtual-time-budget=10000", *(["--no-sandbox"] if os.getuid() == 0 else []), *options, url]
    return subprocess.run(words, capture_output=True, timeout=LONGEST, check=False).stdout.decode()


def shown(folder, web, did):
    """The page of an identifier."""
    page = Elements(browse(folder, "http://127.0.0.1:%d/?did=%s" % (web.port, quote(did, safe="")), "--dump-dom"))
    same(sum(name == "script" for name, _ in page.found), 1, "the scripts of the page")
    same([value for _, attributes in page.found for value in attributes if value.startswith("on")], [], "handlers of events")
    same(page.text.count("Sidetree identifiers"), 2, "the title and the heading")
    return page


def hostile():
    """The long form of an identifier whose services are hostile, and of some keys and names."""
    services = [{"id": "s%d" % n, "type": ENDPOINTS[n][:12] if n < 2 else "T" + MARKS[:3], "serviceEndpoint": endpoint}
                for n, endpoint in enumerate(ENDPOINTS)] + [{"id": "map", "type": "x", "serviceEndpoint": {"<b>": "</bdi><script>1</script>"}}]
    key = {"id": "k", "type": "<script>2</script>", "purposes": ["authentication"], "publicKeyJwk": {"kty": "</td><script>3</script>"},
           "controller": "did:x:<i>"}
    # A delta may have a thousand bytes, so there are two identifiers.
    for patches in ([{"action": "add-services", "services": services[:4]}], [{"action": "add-services", "services": services[4:]}],
                    [{"action": "add-public-keys", "publicKeys": [key]}]):
        delta = {"patches": patches, "updateCommitment": uri_of(b"hostile")}
        data = {"deltaHash": uri_of(canonical(delta)), "recoveryCommitment": uri_of(b"hostile")}
        yield "did:sidetree:%s:%s" % (uri_of(canonical(data)), base64url(canonical({"delta": delta, "suffixData": data})))


def lived():
    """A session after which an identifier was updated, recovered and deactivated, and its last line, which explains it."""
    with open(os.path.join(TOP, "examples", "explained.in"), encoding="utf-8") as given, open(
            os.path.join(TOP, "examples", "explained.out"), encoding="utf-8") as replies:
        lines, verdicts = [], []
        for line in given.read().splitlines():
            lines.append(line)
            head = replies.readline()
            if head.startswith("explained "):
                verdicts = [replies.readline().split()[4] for _ in range(int(head.split()[1]))]
            if {"updated", "recovered", "deactivated"} <= set(verdicts):
                return lines, verdicts
    raise AssertionError("the session has no such identifier")


@case("the page in a browser: an identifier that was updated, recovered and deactivated")
def whole_life(folder):
    browser()
    lines, verdicts = lived()
    did = lines[-1].split(" ")[1]
    with KeptWeb(folder) as web:
        tool("tell", web.keeper.all, given="".join(line + "\n" for line in lines))
        page = shown(folder, web, did)
        same([attributes.get("class") for attributes in page.all("li")],
             ["acted" if verdict in ("created", "updated", "recovered", "deactivated") else "" for verdict in verdicts], "the timeline")
        said = page.said()
        for text in ("deactivated", "The ledger ends with entry", "no effect: it reveals another key than the awaited one", "Entries", "Memory"):
            holds(text in said, "the page says %s: %s" % (text, said))
        same(next(attributes["class"] for tag, attributes in page.found if attributes.get("id") == "state"), "state bad")


@case("the page in a browser: one that is active, one that is deactivated, unknown ones")
def several(folder):
    browser()
    with KeptWeb(folder) as web:
        tool("feed", os.path.join(TOP, "examples", "folder"), web.keeper.all)
        page = shown(folder, web, FIRST)
        said = page.said()
        for text in ("active", "entry 2 at height 22", "#sign", "JsonWebKey2020", "assertionMethod", "https://example.com/shop", "Next recovery",
                     "create at height 20, entry 0", "the identifier was created"):
            holds(text in said, "the page says %s: %s" % (text, said))
        same([attributes["href"] for attributes in page.all("a") if attributes["href"].startswith("http")],
             ["https://example.com/", "https://example.com/shop"])
        same([[attributes.get("id"), attributes.get("name")] for attributes in page.all("input")], [["did", "did"]])
        for did, state in ((SECOND, "deactivated"), (NOBODY, "unknown"), ("<script>x</script>", "invalid"), ("did:sidetree:x\n", "invalid")):
            said = shown(folder, web, did).said()
            holds(state in said, "%s is %s: %s" % (did, state, said))
        holds("What you see here" in Elements(browse(folder, "http://127.0.0.1:%d/" % web.port, "--dump-dom")).said(), "the page alone")
    holds("unavailable" in shown_without_keeper(folder), "the page without a keeper")


def shown_without_keeper(folder):
    from web import Web
    with Web(os.path.join(folder, "nothing")) as web:
        return shown(folder, web, FIRST).said()


@case("the page in a browser: what a document says is text, and marks that turn text are spelled out")
def is_text(folder):
    browser()
    with KeptWeb(folder) as web:
        said, links = "", []
        for did in hostile():
            holds(asked(web.keeper.ask, "resolve " + did)[0].startswith("resolved "), "a node takes it")
            page = shown(folder, web, did)
            said += page.said()
            links += [attributes["href"] for attributes in page.all("a") if attributes["href"] != "/health"]
            same(page.all("img") + page.all("b") + page.all("i"), [], "elements that a document has made")
            holds("unpublished" in page.said(), page.said())
        same(links, [ENDPOINTS[3], ENDPOINTS[5]], "the links")
        for text in (ENDPOINTS[0], ENDPOINTS[1], ENDPOINTS[2], ENDPOINTS[3], ENDPOINTS[4], "</td><script>3</script>", "<script>2</script>",
                     "⟨U+202E⟩gnp.exe⟨U+2066⟩⟨U+200B⟩", "⟨U+000A⟩⟨U+0009⟩", '{"<b>":"</bdi><script>1</script>"}'):
            holds(text in said, "the page says %s: %s" % (text, said))
        holds(not re.search("[\u202a-\u202e\u2066-\u2069\u200b]", said), "no mark is left")
