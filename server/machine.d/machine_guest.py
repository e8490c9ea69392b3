"""A machine in QEMU, whose agent executes commands and whose power can be cut."""
import base64
import itertools
import json
import pathlib
import shlex
import socket
import subprocess
import time
import typing

from connection import Wrong
from machine_disk import System
from server import PROCESSES, free_port

BOOT_SECONDS = 300
COMMAND_SECONDS = 120
ANSWER_SECONDS = 20
TYPE_SECONDS = 5
ENVIRONMENT = "export HOME=/root PATH=/usr/local/sbin:/usr/local/bin:/usr/sbin:/usr/bin:/sbin:/bin"
QEMU = """
    qemu-system-x86_64 -nodefaults -no-user-config -display none -no-reboot -cpu max -smp 2 -m 1024
    -netdev user,id=net,restrict=on,hostfwd=tcp:127.0.0.1:{port}-:8443 -device virtio-net-pci,netdev=net -device virtio-rng-pci
    -device virtio-serial-pci -device virtserialport,chardev=agent,name=org.qemu.guest_agent.0
"""


class Ran(typing.NamedTuple):
    """How a command of the machine ended, and what it printed."""

    status: int
    text: str


class Machine:
    """A machine with a disk of its own and one that it may only read.

    Its port 8443 is `port` of the loopback. What it has flushed to its disk outlasts `cut`. What it has only
    written does not, where QEMU has not yet stored the place of a block that is new to the disk.
    """

    def __init__(self, system: System, folder: pathlib.Path, given: pathlib.Path, accelerator: str):
        self.folder = folder
        self.port = free_port()
        self.boots = 0
        folder.mkdir()
        self.command = [
            *QEMU.format(port=self.port).split(),
            *("-accel", accelerator),
            *("-kernel", system.kernel, "-initrd", system.initrd),
            *("-append", "root=/dev/vda rw console=ttyS0 quiet"),
            *("-drive", f"if=virtio,format=qcow2,file={system.layer(folder / 'disk')}"),
            *("-drive", f"if=virtio,format=raw,readonly=on,file={given}"),
        ]
        self.process: subprocess.Popen | None = None
        self.agent: socket.socket | None = None

    # ---- power

    def start(self) -> float:
        """Switches the machine on, and waits until its system executes commands. Returns how long that took."""
        began = time.monotonic()
        self.boots += 1
        agent, console = self.folder / f"agent-{self.boots}", self.folder / f"console-{self.boots}"
        more = ["-chardev", f"socket,id=agent,server=on,wait=off,path={agent}", "-serial", f"file:{console}"]
        with (self.folder / "qemu.log").open("ab") as log:
            self.process = PROCESSES.start([*self.command, *more], stdout=log, stderr=log)
        while not agent.exists():
            self.must_run(began)
            time.sleep(0.1)
        self.agent = socket.socket(socket.AF_UNIX)
        self.agent.connect(str(agent))
        numbers = itertools.count()
        while not self.is_in_step(next(numbers)):
            self.must_run(began)
        return time.monotonic() - began

    def must_run(self, began: float):
        if self.process.poll() is not None:
            raise Wrong(f"QEMU ends with status {self.process.returncode}: {(self.folder / 'qemu.log').read_text()}")
        if time.monotonic() - began > BOOT_SECONDS:
            raise Wrong(f"the machine executes no command after {BOOT_SECONDS} s:\n{self.console()}")

    def cut(self):
        """Cuts the power: what is in the memory of the machine and not on its disk is lost."""
        if self.process:
            PROCESSES.end(self.process)
        if self.agent:
            self.agent.close()

    def console(self) -> str:
        """The last lines that the machine has printed."""
        file = self.folder / f"console-{self.boots}"
        return file.read_text(errors="replace")[-3000:] if file.exists() else ""

    # ---- commands

    def send(self, name: str, **arguments):
        self.agent.sendall(json.dumps({"execute": name, "arguments": arguments}).encode() + b"\n")

    def receive(self, seconds: float) -> dict:
        self.agent.settimeout(seconds)
        line = b""
        while not line.endswith(b"\n"):
            piece = self.agent.recv(1 << 16)
            if not piece:
                raise Wrong("the machine closes the connection of its agent")
            line += piece
        return json.loads(line)

    def is_in_step(self, number: int) -> bool:
        """Whether the agent answers this. What it answers to earlier ones is dropped."""
        try:
            self.send("guest-sync", id=number)
            while self.receive(1).get("return") != number:
                pass
            return True
        except (TimeoutError, ValueError):
            return False

    def call(self, name: str, **arguments) -> dict:
        self.send(name, **arguments)
        answer = self.receive(ANSWER_SECONDS)
        if "return" not in answer:
            raise Wrong(f"{name}: {answer}")
        return answer["return"]

    def run(self, command: str, given: str = "", seconds: float = COMMAND_SECONDS) -> Ran:
        """Executes a command of the shell as root, with this as its input."""
        words = ["-c", f"exec 2>&1; {ENVIRONMENT}; {command}"]
        encoded = base64.b64encode(given.encode()).decode()
        begun = self.call("guest-exec", path="/bin/bash", arg=words, **{"input-data": encoded, "capture-output": True})
        end = time.monotonic() + seconds
        while not (state := self.call("guest-exec-status", pid=begun["pid"]))["exited"]:
            if time.monotonic() > end:
                raise Wrong(f"`{command}` has not ended after {seconds} s")
            time.sleep(0.2)
        text = base64.b64decode(state.get("out-data", "")).decode(errors="replace")
        return Ran(state.get("exitcode", -1), text)

    def do(self, command: str, given: str = "", seconds: float = COMMAND_SECONDS) -> str:
        """Executes a command that must end with status 0, and returns what it prints."""
        ran = self.run(command, given, seconds)
        if ran.status != 0:
            raise Wrong(f"`{command}` ends with status {ran.status}:\n{ran.text}")
        return ran.text

    def type(self, command: str, *lines: str) -> str:
        """Executes a command at a terminal, where these lines are typed. A program may drop what is typed before it asks."""
        typed = "; ".join(f"sleep {TYPE_SECONDS}; echo {shlex.quote(it)}" for it in lines)
        return self.do(f"({typed}) | script -qec {shlex.quote(command)} /dev/null").replace("\r\n", "\n")
