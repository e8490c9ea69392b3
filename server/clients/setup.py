"""`davserve setup`: a server with the options that it writes has TLS, users and access rules, and keeps what it answered."""
import hashlib
import os
import pathlib
import pty
import re
import select
import signal
import socket
import ssl
import subprocess
import termios
import time

import accounts
from connection import Wrong
from harness import Group, Starter
from programs import SERVER
from server import PROCESSES, Server, expect

GROUP = Group("setup", is_measured=True, is_shared=False)  # bcrypt is slow with the race detector.
GROUPS = [GROUP]

SECONDS = 30
READ_SECONDS = 1.1  # after which a server reads the users again
ANN = "ann", "open sesame"
BERT = "bert", "pass:w\u00f6rt"
AS_ANN, AS_BERT = accounts.basic(*ANN), accounts.basic(*BERT)
HOSTS = "-host", "dav.example", "-host", "127.0.0.1"


def words(starter: Starter, user: str, *more) -> list:
    options = starter.folder / "options"
    if not options.exists():
        options.write_text((SERVER / "install/davserve.default").read_text())
    command = [starter.programs.davserve, "setup", "-user", user, "-config", starter.folder / "etc", "-options", options]
    return [*command, "-davd", starter.programs.davd, "-no-start", *more]


def set_up(starter: Starter, user: str, password: str, *more, status=0) -> str:
    """Runs `davserve setup` with a password as its standard input, and returns what is printed."""
    with starter.write("password", f"{password}\n").open() as given:
        ran = PROCESSES.run(words(starter, user, *more), SECONDS, stdin=given)
    expect(f"the exit status of davserve setup, which printed\n{ran.stdout}", ran.returncode, status)
    return ran.stdout


def options_of(starter: Starter) -> list[str]:
    """The options that the file for the service has."""
    found = re.findall(r'^DAVSERVE_OPTIONS="(.*)"$', (starter.folder / "options").read_text(), re.M)
    expect("the number of lines with options", len(found), 1)
    return found[0].split()


def serve(starter: Starter) -> Server:
    """Starts what the service starts, at another port."""
    options = options_of(starter)
    place = options.index("-listen")
    expect("the address", options[place + 1], ":8443")
    return starter.start("-folder", "{folder}/kept", *options[:place], *options[place + 2 :])


def secured(server: Server, certificate: pathlib.Path) -> str:
    """Connects as a client that knows the certificate of a file, and returns the fingerprint of the one that it gets."""
    context = ssl.create_default_context(cafile=certificate)
    with socket.create_connection(("127.0.0.1", server.port), SECONDS) as plain:
        with context.wrap_socket(plain, server_hostname="127.0.0.1") as connection:
            digest = hashlib.sha256(connection.getpeercert(binary_form=True)).hexdigest().upper()
    return ":".join(re.findall("..", digest))


def files(starter: Starter) -> dict[str, bytes]:
    found = [*(starter.folder / "etc").iterdir(), starter.folder / "options"]
    return {it.name: it.read_bytes() for it in found}


def changed(before: dict[str, bytes], after: dict[str, bytes]) -> list[str]:
    return sorted(name for name in before.keys() | after.keys() if before.get(name) != after.get(name))


def allowed(starter: Starter, user: str, path: str) -> str:
    """What `davserve rights check` prints."""
    command = [starter.programs.davserve, "rights", "check", "-davd", starter.programs.davd, starter.folder / "etc/rules.toml"]
    ran = PROCESSES.run([*command, user, path], SECONDS)
    expect(f"the exit status of the check, which printed\n{ran.stdout}", ran.returncode, 0)
    return ran.stdout.strip()


def killed(server: Server):
    """Kills the server and davd at once, and waits until davd has ended."""
    child = pathlib.Path(f"/proc/{server.davd()}")
    server.kill()
    end = time.monotonic() + SECONDS
    while child.exists():
        if time.monotonic() > end:
            raise Wrong("davd goes on after SIGKILL")
        time.sleep(0.02)


def reload(server: Server):
    """Has the server read the access rules again."""
    server.process.send_signal(signal.SIGHUP)
    end = time.monotonic() + SECONDS
    while "hold from now on" not in server.log():
        if time.monotonic() > end:
            raise Wrong("the access rules are not read again")
        time.sleep(0.02)


def said(text: str, *wanted: str):
    for it in wanted:
        if it not in text:
            raise Wrong(f"expected {it!r}, got {text!r}")


@GROUP.check("the server has TLS, one user and rules, and keeps its files and certificate after kill -9")
def one_user(starter: Starter):
    text = set_up(starter, *ANN, *HOSTS)
    shown = re.search(r"^fingerprint  ([0-9A-F:]{95}) ", text, re.M)
    said(text, "https://dav.example:8443/\n", "/var/lib/davserve\n", "davserve backup ", "systemctl restart davserve\n")
    certificate = starter.folder / "etc/cert.pem"
    server = serve(starter)
    expect("the fingerprint", secured(server, certificate), shown and shown[1])
    server.ask("PUT", "/a", b"kept", AS_ANN, 201)
    for fields in ({}, accounts.basic("ann", "wrong")):
        server.ask("PUT", "/a", b"other", fields, 401)
    expect("what the rules allow", allowed(starter, "ann", "/a"), "rule 1 decides: ann may list, read and write /a")
    killed(server)
    server = serve(starter)
    expect("the file", server.ask("GET", "/a", None, AS_ANN, 200).body, b"kept")
    expect("the fingerprint after a restart", secured(server, certificate), shown[1])
    server.stop()


@GROUP.check("a second user gets a folder by the rule in the comments, and a new password counts without a restart")
def two_users(starter: Starter):
    set_up(starter, *ANN)
    server = serve(starter)
    server.ask("MKCOL", "/bert", None, AS_ANN, 201)
    before = files(starter)
    said(set_up(starter, *BERT), "bert is added. All other lines stay\n", "no rule decides: bert may do nothing at /\n")
    said(set_up(starter, "ann", "changed"), "ann has this password from now on")
    expect("the files that differ", changed(before, files(starter)), ["users"])
    time.sleep(READ_SECONDS)
    server.ask("GET", "/", None, accounts.basic("ann", "changed"), 200)
    server.ask("GET", "/bert/", None, AS_BERT, 403)
    rules = starter.folder / "etc/rules.toml"
    rules.write_text(re.sub(r"^#(?! )", "", rules.read_text(), flags=re.M))
    reload(server)
    expect("what the rules allow", allowed(starter, "bert", "/bert"), "rule 2 decides: bert may list, read and write /bert")
    server.ask("PUT", "/bert/b", b"of bert", AS_BERT, 201)
    server.ask("PUT", "/b", b"of bert", AS_BERT, 403)
    server.ask("GET", "/", None, AS_ANN, 401)
    server.stop()


@GROUP.check("options that somebody has changed stay, with status 1 unless they name the users and rules")
def changed_options(starter: Starter):
    set_up(starter, *ANN)
    options = starter.folder / "options"
    own = options.read_text()
    options.write_text(own.replace("-listen :8443", "-max-xml 2M -listen :8443"))
    before = files(starter)
    said(set_up(starter, *BERT), f"{options}: stays\n")
    expect("the files that differ", changed(before, files(starter)), ["users"])
    options.write_text('DAVSERVE_OPTIONS="-listen 127.0.0.1:8080 -max-xml 2M"\n')
    text = set_up(starter, *BERT, status=1)
    said(text, f"-users {starter.folder}/etc/users -rights {starter.folder}/etc/rules.toml\n", "so it stays")
    expect("the options", options.read_text(), 'DAVSERVE_OPTIONS="-listen 127.0.0.1:8080 -max-xml 2M"\n')


@GROUP.check("rules with an error, and an empty password, leave all as it was")
def refused(starter: Starter):
    set_up(starter, *ANN)
    before = files(starter)
    said(set_up(starter, "bert", "", status=1), "davserve setup: the password is empty\n")
    expect("the files that differ", changed(before, files(starter)), [])
    rules = starter.folder / "etc/rules.toml"
    rules.write_text("[[rule]]\nuser = 1\n")
    before = files(starter)
    said(set_up(starter, *BERT, status=1), f"davserve setup: {rules}: ")
    expect("the files that differ", changed(before, files(starter)), [])


class Terminal:
    """A command whose standard input and standard error are a terminal."""

    def __init__(self, command: list):
        self.ours, self.theirs = pty.openpty()
        self.process = PROCESSES.start(command, stdin=self.theirs, stdout=subprocess.DEVNULL, stderr=self.theirs)
        self.shown = b""

    def answer(self, question: bytes, text: bytes):
        """Waits for a question, and types what answers it."""
        while question not in self.shown:
            if not select.select([self.ours], [], [], SECONDS)[0]:
                raise Wrong(f"expected {question!r}, got {self.shown!r}")
            self.shown += os.read(self.ours, 4096)
        os.write(self.ours, text)

    def shows_typing(self) -> bool:
        return bool(termios.tcgetattr(self.theirs)[3] & termios.ECHO)

    def end(self) -> int:
        """Waits for the end, and returns the exit status."""
        status = self.process.wait(SECONDS)
        while select.select([self.ours], [], [], 0.1)[0]:
            self.shown += os.read(self.ours, 4096)
        return status


@GROUP.check("on a terminal the password is asked for twice, and not shown")
def terminal(starter: Starter):
    for second, status in (("other", 1), (ANN[1], 0)):
        asked = Terminal(words(starter, "ann"))
        asked.answer(b"Password of ann: ", f"{ANN[1]}\n".encode())
        expect("whether typing is shown", asked.shows_typing(), False)
        asked.answer(b"The same once more: ", f"{second}\n".encode())
        expect(f"the exit status with {second}", asked.end(), status)
        expect("whether typing is shown later", asked.shows_typing(), True)
        if b"sesame" in asked.shown:
            raise Wrong(f"expected no password, got {asked.shown!r}")
        expect("whether there are users", (starter.folder / "etc").exists(), status == 0)
    interrupted = Terminal(words(starter, "bert"))
    interrupted.answer(b"Password of bert: ", b"")
    interrupted.process.send_signal(signal.SIGINT)
    expect("the exit status after SIGINT", interrupted.end(), 1)
    said(interrupted.shown.decode(), "davserve setup: it was interrupted")
    expect("whether typing is shown", interrupted.shows_typing(), True)
    server = serve(starter)
    server.ask("GET", "/", None, AS_ANN, 200)
    server.stop()
