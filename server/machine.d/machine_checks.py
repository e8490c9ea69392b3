"""What the machine is tried with: the commands of docs/SERVER.md, and cuts of its power."""
import hashlib
import re
import threading
import time
import typing

from accounts import basic
from connection import Answer, Connection, Wrong
from machine_commands import commands
from machine_guest import Machine
from machine_load import Writer
from server import expect, expected

ANN, BERT = ("ann", "open sesame"), ("bert", "pass:w\u00f6rt")
AS_ANN, AS_BERT = basic(*ANN), basic(*BERT)
FOLDER = "/var/lib/davserve"
GIVEN = "mountpoint -q /mnt || mount -o ro /dev/vdb /mnt"
WRITERS = 4
WRITE_SECONDS = 12
SERVE_SECONDS = 120
READ_SECONDS = 1.1  # after which a server reads the users again


class Trial:
    """What is tried on one machine, in order."""

    def __init__(self, machine: Machine):
        self.machine = machine
        self.certificate = ""
        self.writers = [Writer(machine.port, AS_ANN, it) for it in range(WRITERS)]

    def ask(self, method: str, path: str, body: bytes | None, fields: dict, status: int) -> Answer:
        with Connection(self.machine.port, tls=True, seconds=SERVE_SECONDS) as connection:
            connection.request(method, path, body, fields)
            return expected(connection.answer(method), status, f"{method} {path}")

    def fingerprint(self) -> str:
        with Connection(self.machine.port, tls=True, seconds=SERVE_SECONDS) as connection:
            digest = hashlib.sha256(connection.socket.getpeercert(binary_form=True)).hexdigest().upper()
        return ":".join(re.findall("..", digest))

    def states(self) -> list[str]:
        """Whether the service is started with the machine, and whether it runs."""
        return [self.machine.run(f"systemctl {it} davserve").text.strip() for it in ("is-enabled", "is-active")]

    def documented(self, heading: str, first: str, *typed: str, seconds: float = SERVE_SECONDS) -> str:
        """Executes the commands of a block, with these lines typed at the first one that asks."""
        said = ""
        for command in commands(heading, first):
            asks = typed and re.search("htpasswd|davserve setup", command)
            said += self.machine.type(command, *typed) if asks else self.machine.do(command, seconds=seconds)
        return said

    # ---- with the package

    def boots(self):
        """a new Debian boots, and what was not flushed when its power is cut is lost"""
        machine = self.machine
        seconds = machine.start()
        machine.do("echo kept > /root/kept; sync; echo lost > /root/lost")
        machine.cut()
        machine.start()
        expect("the files that are left", machine.do("cd /root; ls kept lost 2>/dev/null || true").split(), ["kept"])
        return f"it boots in {seconds:.0f} s"

    def package(self):
        """apt-get installs the package, and the service is neither enabled nor started"""
        self.machine.do(f"{GIVEN}; mkdir -p /root/tree; cp /mnt/davserve_*.deb /root")
        (command,) = [it for it in commands("### Packages and releases", "DAVD=") if "apt-get" in it]
        self.machine.do(f"cd /root/tree; {command}")
        expect("the service", self.states(), ["disabled", "inactive"])
        self.machine.do("getent group davserve; man -w davserve 2>/dev/null || ls /usr/share/man/man1/davserve.1.gz")

    def setup(self):
        """davserve setup asks for a password, which it does not show, and starts a service with TLS and one user"""
        said = self.machine.type(commands("## Install it", "sudo make")[1], ANN[1], ANN[1])
        for wanted in ("URL          https://box:8443/\n", "the service runs", f"folder       {FOLDER}\n"):
            expect(f"{wanted!r} in what is printed ({said})", wanted in said, True)
        expect(f"the password in what is printed ({said})", ANN[1] in said, False)
        expect("the service", self.states(), ["enabled", "active"])
        self.certificate = self.fingerprint()
        expect("the fingerprint", re.findall(r"^fingerprint  (\S+) ", said, re.M), [self.certificate])
        self.ask("PUT", "/a", b"first", AS_ANN, 201)
        for fields in ({}, basic("ann", "wrong"), AS_BERT):
            self.ask("GET", "/a", None, fields, 401)

    def second_user(self):
        """a second user has what the access rules allow after a reload, and no more"""
        self.machine.type("sudo davserve setup -user bert -no-start", BERT[1], BERT[1])
        time.sleep(READ_SECONDS)
        self.ask("MKCOL", "/bert", None, AS_ANN, 201)
        self.ask("PUT", "/bert/b", b"his", AS_BERT, 403)
        self.machine.do("sed -i 's/^#\\([^ ]\\)/\\1/' /etc/davserve/rules.toml")
        self.documented("### Change the rules", "systemctl reload")
        end = time.monotonic() + SERVE_SECONDS
        while "hold from now on" not in self.machine.do("journalctl -u davserve"):
            if time.monotonic() > end:
                raise Wrong("the access rules are not read again")
        self.ask("PUT", "/bert/b", b"his", AS_BERT, 201)
        self.ask("GET", "/a", None, AS_BERT, 403)

    def writes(self):
        """a folder for each of the writers"""
        for writer in self.writers:
            writer.make()

    def power_cut(self):
        """a power cut while clients write loses nothing that was answered"""
        threads = [threading.Thread(target=it.write, daemon=True) for it in self.writers]
        for thread in threads:
            thread.start()
        time.sleep(WRITE_SECONDS)
        self.machine.cut()
        for thread in threads:
            thread.join(SERVE_SECONDS)
        seconds = self.machine.start()
        self.await_service()
        expect("the certificate", self.fingerprint(), self.certificate)
        expect("a file of before", self.ask("GET", "/a", None, AS_ANN, 200).body, b"first")
        answered = sum(it.answered for it in self.writers)
        for writer in self.writers:
            writer.check()
        return f"{answered} changes were answered, and it boots in {seconds:.0f} s"

    def await_service(self):
        end = time.monotonic() + SERVE_SECONDS
        while self.states() != ["enabled", "active"]:
            if time.monotonic() > end:
                raise Wrong(f"the service does not serve:\n{self.machine.run('journalctl -u davserve -n 50').text}")
            time.sleep(0.5)

    def checks(self):
        """davd --check finds no damage after the power cuts"""
        self.machine.do("sudo systemctl stop davserve")
        said = self.machine.do(f"davd --check {FOLDER}")
        self.machine.do("sudo systemctl start davserve")
        return said.strip().splitlines()[-1] if said.strip() else None

    def backup(self):
        """sqlite3 lists the files of a backup of the service, and it is restored"""
        self.machine.do(f"mkdir /backups; sudo davserve backup -folder {FOLDER} /backups/monday")
        (command,) = commands("### What meta.db has", "sqlite3")
        command = command.replace("server/views.sql", "/mnt/views.sql").replace("FOLDER", "/backups/monday")
        listed = self.machine.do(f"{GIVEN}; {command}")
        expect(f"the file in {listed}", re.findall(r"^/a\|5\|", listed, re.M), ["/a|5|"])
        self.ask("PUT", "/a", b"second", AS_ANN, 204)
        self.machine.do(f"systemctl stop davserve; rm -r {FOLDER}; cp -r /backups/monday {FOLDER}")
        self.machine.do(f"sudo chown -R davserve: {FOLDER}; systemctl start davserve")
        expect("the file", self.ask("GET", "/a", None, AS_ANN, 200).body, b"first")

    def imports(self):
        """files are imported into the folder of the stopped service, and exported again"""
        self.machine.do("cd /root; mkdir -p photos/old; echo one > photos/1; echo two > 'photos/old/2 3'; touch -d @86400 photos/1")
        for command in commands("## Move files in and out", "sudo systemctl stop"):
            self.machine.do(f"cd /root; {command}")
        answer = self.ask("GET", "/photos/1", None, AS_ANN, 200)
        expect("the file", (answer.body, answer.field("Last-Modified")), (b"one\n", "Fri, 02 Jan 1970 00:00:00 GMT"))
        self.machine.do(f"systemctl stop davserve; cd /root; davserve export -folder {FOLDER} copy /photos; systemctl start davserve")
        self.machine.do("cd /root; diff -r photos copy; test $(stat -c %Y copy/1) = 86400")

    def locks(self):
        """a lock is listed and removed"""
        info = b'<lockinfo xmlns="DAV:"><lockscope><exclusive/></lockscope><locktype><write/></locktype></lockinfo>'
        token = self.ask("LOCK", "/a", info, AS_ANN, 200).field("Lock-Token").strip("<>")
        self.ask("PUT", "/a", b"other", AS_ANN, 423)
        listed = self.machine.do(f"sudo davserve locks list -folder {FOLDER}")
        expect(f"the lock in {listed}", token in listed, True)
        self.machine.do(f"sudo davserve locks remove -folder {FOLDER} {token}")
        self.ask("PUT", "/a", b"other", AS_ANN, 204)

    def certbot(self):
        """the files of certbot, which only root may read, serve TLS"""
        machine, live = self.machine, "/etc/letsencrypt/live/dav.example.org"
        machine.do(f"davserve setup -user carl -no-start -config /root/other -options /root/options -host dav.example.org", "carl\n")
        machine.do(f"install -d -m 700 {live}; cp /root/other/cert.pem {live}/fullchain.pem; cp /root/other/key.pem {live}/privkey.pem")
        lines = "\n".join(commands("### Do it manually", "[Service]"))
        machine.do("install -D /dev/stdin /etc/systemd/system/davserve.service.d/override.conf", f"{lines}\n")
        machine.do(r"sed -i -E 's#/etc/davserve/(cert|key)\.pem#/run/credentials/davserve.service/\1.pem#g' /etc/default/davserve")
        machine.do("systemctl daemon-reload; systemctl restart davserve")
        other = machine.do(f"sha256sum <(sed '/---/d' {live}/fullchain.pem | base64 -d)").split()[0].upper()
        expect("the fingerprint", self.fingerprint().replace(":", ""), other)
        expect("the file", self.ask("GET", "/a", None, AS_ANN, 200).body, b"other")

    def log(self):
        """journalctl has the log of the service, which has no panic"""
        log = self.machine.do("journalctl -u davserve")
        expect("an access log", "/a" in log, True)
        expect("a panic", "panic" in log, False)

    def removal(self):
        """the removal of the package stops the service, and leaves the folder"""
        self.machine.do("apt-get remove -q -y davserve")
        expect("the service", self.states()[1], "inactive")
        self.machine.do(f"test -s {FOLDER}/meta.db; test -e /etc/davserve/users; ! test -e /usr/bin/davserve")
        self.machine.cut()

    # ---- with what `make install` installs

    def by_hand(self):
        """after make install the service is started by hand, for this machine and without users"""
        self.machine.start()
        self.machine.do(f"{GIVEN}; tar -C / -xf /mnt/made.tar")
        self.documented("### Do it manually", "sudo systemd-sysusers")
        expect("the service", self.states(), ["enabled", "active"])
        self.machine.do("curl -fsS -T /etc/hostname http://127.0.0.1:8080/b; curl -fsS http://127.0.0.1:8080/b | diff /etc/hostname -")

    def users_by_hand(self):
        """a file of users that htpasswd makes counts, and a certificate for a try serves TLS"""
        self.documented("### Do it manually", "sudo mkdir", ANN[1], ANN[1])
        options = "-listen :8443 -tls-self-signed -users /etc/davserve/users"
        self.machine.do(f"sed -i 's|^DAVSERVE_OPTIONS=.*|DAVSERVE_OPTIONS=\"{options}\"|' /etc/default/davserve")
        self.machine.do("sudo systemctl restart davserve")
        expect("the file", self.ask("GET", "/b", None, AS_ANN, 200).body, b"box\n")
        self.ask("GET", "/b", None, {}, 401)

    def setup_after_make(self):
        """davserve setup does the same after make install"""
        self.machine.do("rm -r /etc/davserve; tar -C / -xf /mnt/made.tar ./etc/default/davserve; systemctl disable --now davserve")
        self.setup()


def package_checks(trial: Trial, cuts: int) -> list[typing.Callable]:
    installed = [trial.boots, trial.package, trial.setup, trial.second_user, trial.writes]
    kept = [trial.checks, trial.backup, trial.imports, trial.locks, trial.certbot, trial.log, trial.removal]
    return [*installed, *[trial.power_cut] * cuts, *kept]


def made_checks(trial: Trial, _: int) -> list[typing.Callable]:
    return [trial.by_hand, trial.users_by_hand, trial.setup_after_make]
