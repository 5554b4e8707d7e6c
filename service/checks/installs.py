"""What is installed, how it is replaced, and the packages."""
import hashlib
import os
import shutil
import subprocess
import sys
import tarfile

from client import Node
from frame import FOLDER, SERVICE, TOOLS, TOP, Skipped, case, command, holds, same, write

COMMIT, KIT = "1234567", "rattle-kit-0z logic 00"


def built(folder):
    """A copy of the program, with what a build writes down beside it."""
    os.makedirs(os.path.join(folder, "built"))
    program = shutil.copy(os.environ["SIDETREE"], os.path.join(folder, "built", "st_cli"))
    write(os.path.join(folder, "built", "commit"), COMMIT + "\n")
    write(os.path.join(folder, "built", "kit"), KIT + "\n")
    return program


def install(program, prefix):
    done = command(os.path.join(TOP, "launcher", "install"), TOP, program, prefix)
    same((done.status, done.err.count("\n")), (0, 1), done.err)


def bare(prefix, **more):
    """An environment in which only the installed commands and the system's are on the path."""
    found = {"PATH": "%s/bin:%s" % (prefix, os.environ["PATH"]), "PYTHONDONTWRITEBYTECODE": "1", **more}
    return found


def life(name):
    with open(os.path.join(TOP, "examples", "life." + name), "rb") as file:
        return file.read()


@case("what is installed runs without the checkout, and says which program it is")
def installed(folder):
    prefix = os.path.join(folder, "usr with a space")
    install(built(folder), prefix)
    environment = bare(prefix)
    same(command("sidetree", "node", given=life("in"), env=environment).out, life("out").decode())
    same(command("sidetree", "--version", env=environment).out, "sidetree %s, proved with rattle-kit-0z, built for x86-64-v2\n" % COMMIT)
    usage = command("sidetree", "--help", env=environment)
    holds(usage.status == 0 and usage.out.startswith("usage: sidetree node") and "install" not in usage.out, usage.out)
    for name in TOOLS:
        done = command("sidetree-" + name, "--help", env=environment)
        holds(done.status == 0 and "usage: sidetree-%s" % name in done.out, done.out + done.err)
        holds(os.path.getsize(os.path.join(prefix, "share/man/man1/sidetree-%s.1" % name)) > 500, "the page of " + name)
    did = open(os.path.join(FOLDER, "dids"), encoding="utf-8").readline().strip()
    same(command("sidetree-resolve", FOLDER, did, env=environment).status, 0)
    application = command(sys.executable, "-c", "import gateway_wsgi as g; print(g.application.program, len(g.application.page.body) > 5000)",
                          cwd=os.path.join(prefix, "lib/sidetree"), env={**environment, "SIDETREE_GATEWAY": "ask"})
    same(application.out, command("sidetree", "--version", env=environment).out.rstrip("\n") + " True\n", application.err)
    os.symlink(os.path.join(prefix, "bin", "sidetree"), os.path.join(folder, "link"))
    same(command(os.path.join(folder, "link"), "node", given="wanted\n", env=environment).out, "wanted 0\n")
    with open(os.path.join(prefix, "lib/systemd/system/sidetree.service"), encoding="utf-8") as unit:
        holds("ExecStart=%s/lib/sidetree/keeper" % prefix in unit.read(), "the unit has the prefix")
    holds(len(open(os.path.join(prefix, "bin", "sidetree"), encoding="utf-8").readlines()) <= 60, "the command has at most 60 lines")


@case("an upgrade replaces the program in one step, while a node goes on, and keeps the old one")
def upgraded(folder):
    prefix, program = os.path.join(folder, "usr"), built(folder)
    install(program, prefix)
    before = dict(os.environ)
    os.environ["SIDETREE"] = os.path.join(prefix, "bin", "sidetree")
    try:
        with Node("node") as node:
            same(node.ask("anchor 1 x"), ["anchored 0"])
            with open(program, "ab") as file:
                file.write(b"\0")
            install(program, prefix)
            same(node.ask("anchor 1 y"), ["anchored 1"])
        with Node("node") as node:
            same(node.ask("wanted"), ["wanted 0"])
    finally:
        os.environ.clear()
        os.environ.update(before)
    old, new = (os.path.getsize(os.path.join(prefix, "lib/sidetree", name)) for name in ("sidetree.before", "sidetree"))
    same(new - old, 1, "the difference of the programs")
    os.replace(os.path.join(prefix, "lib/sidetree/sidetree.before"), os.path.join(prefix, "lib/sidetree/sidetree"))
    same(command("sidetree", "node", given="wanted\n", env=bare(prefix)).out, "wanted 0\n", "what the one before answers")
    left = [name for at, _, names in os.walk(prefix) for name in names if name.endswith(".new")]
    same(left, [], "files that are left")


# Words of the installed command, its status, and what it says.
INVALID = [
    ("", 1, "no command was given"), ("nod", 1, "there is no command 'nod'"), ("help", 1, "there is no command 'help'"),
    ("node --limit 7", 1, "node has no option '--limit'"), ("node --limit=0", 1, "1 to 1073741824, not '0'"),
    ("node --limit=010", 1, "not '010'"), ("node --limit=1073741825", 1, "not '1073741825'"), ("node --limit=", 1, "not ''"),
    ("node --v2-at=4294967296", 1, "0 to 4294967295"), ("node --journal --limit=7", 1, "in this order"),
    ("node --v2-at=1 --v2-at=1", 1, "in this order"), ("wallet --journal", 1, "takes no more words"), ("exchange 1", 1, "takes no more words"),
    ("generate 1 1", 1, "three numbers"), ("generate 1 201 1", 1, "1 to 200"), ("generate 1 0 1", 1, "1 to 200"),
    ("generate 1 1 31", 1, "0 to 30"), ("generate 18446744073709551616 1 0", 1, "SEED is a number"), ("generate -1 1 0", 1, "SEED"),
    ("install x", 1, "there is no command 'install'"), ("node --limit=7", 0, ""), ("node --v2-at=0", 0, ""), ("exchange", 0, ""),
    ("node --limit=1073741824 --v2-at=4294967295", 0, "")]


@case("words of the installed command that are invalid are named, and the status is the program's")
def invalid(folder):
    prefix = os.path.join(folder, "usr")
    install(built(folder), prefix)
    for words, status, said in INVALID:
        done = command("sidetree", *words.split(), env=bare(prefix))
        same((done.status, done.out), (status, ""), "sidetree %s" % words)
        holds(said in done.err and done.err.count("\n") == (1 if said else 0), "sidetree %s: %s" % (words, done.err))
        direct = command(os.environ["SIDETREE"], *words.split())
        same(done.status, direct.status, "sidetree %s, and the program" % words)
    same(subprocess.run([os.path.join(prefix, "bin/sidetree"), b"nod\xff"], capture_output=True, check=False).returncode, 9)


@case("the packages: the same bytes each time, with sums, program, tools, pages and the gate's last lines")
def packaged(folder):
    program, log = built(folder), os.path.join(folder, "gate")
    write(log, "many lines\n" * 30 + "7 passed, 0 failed\n")
    made = []
    for name in ("one", "two"):
        done = command(os.path.join(SERVICE, "package"), program, os.path.join(folder, name), log)
        same((done.status, done.err), (0, ""))
        made.append({name: hashlib.sha256(open(name, "rb").read()).hexdigest() for name in done.out.split()})
    same(list(made[0].values()), list(made[1].values()))
    archive = next(name for name in made[0] if name.endswith(".tar.gz"))
    holds("0.1.0+" + COMMIT in archive, archive)
    with tarfile.open(archive) as tar:
        names = tar.getnames()
        for wanted in ("bin/sidetree", "bin/sidetree-keeper", "lib/sidetree/sidetree", "lib/systemd/system/sidetree.service",
                       "lib/sidetree/gateway.html", "lib/systemd/system/sidetree-gateway.service", "lib/systemd/system/sidetree-registry.service",
                       "share/man/man1/sidetree.1.gz", "share/man/man1/sidetree-follow.1.gz", "share/zsh/site-functions/_sidetree",
                       "share/fish/vendor_completions.d/sidetree.fish", "share/fish/vendor_completions.d/sidetree-journal.fish",
                       "share/bash-completion/completions/sidetree"):
            holds("./usr/local/" + wanted in names, wanted)
        build = tar.extractfile("./usr/local/share/doc/sidetree/BUILD").read().decode()
        tar.extractall(os.path.join(folder, "unpacked"))
    holds("commit " + COMMIT in build and build.endswith("7 passed, 0 failed\n") and "portable" in build and "No licence" in build, build)
    same(command(os.path.join(folder, "unpacked/usr/local/bin/sidetree"), "node", given="wanted\n").out, "wanted 0\n")
    sums = command("sha256sum", "-c", "SHA256SUMS", cwd=os.path.join(folder, "one"))
    same((sums.status, sums.out.count(": OK")), (0, 2))
    write(os.path.join(folder, "built", "level"), "x86-64-v3\n")
    done = command(os.path.join(SERVICE, "package"), program, os.path.join(folder, "three"))
    same((done.status, done.err.count("\n")), (1, 1), "a program for newer processors")
    os.remove(os.path.join(folder, "built", "level"))
    os.remove(os.path.join(folder, "built", "commit"))
    same(command(os.path.join(SERVICE, "package"), program, os.path.join(folder, "three")).status, 1, "the status without a commit")


@case("the Debian package is one for dpkg")
def debian(folder):
    if subprocess.run(["which", "dpkg-deb"], capture_output=True, check=False).returncode:
        raise Skipped("dpkg-deb is not there")
    done = command(os.path.join(SERVICE, "package"), built(folder), os.path.join(folder, "out"))
    package = next(name for name in done.out.split() if name.endswith(".deb"))
    same(command("dpkg-deb", "-f", package, "Package", "Architecture").out, "Package: sidetree\nArchitecture: amd64\n")
    same(command("dpkg-deb", "-x", package, os.path.join(folder, "root")).status, 0)
    same(command(os.path.join(folder, "root/usr/bin/sidetree"), "node", given="wanted\n").out, "wanted 0\n")
    holds(os.path.exists(os.path.join(folder, "root/usr/share/zsh/vendor-completions/_sidetree")), "zsh's completions are where Debian's looks")
    holds("ExecStart=/usr/lib/sidetree/keeper" in open(os.path.join(folder, "root/usr/lib/systemd/system/sidetree.service"), encoding="utf-8").read(), "the unit")
