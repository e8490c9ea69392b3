"""Random requests of three users under random access rules, compared with a plain model of the rules."""
import random
import signal
import time
import typing

import multistatus
from connection import Answer, Wrong
from harness import Group, Starter
from multistatus import D
from rights_model import CALLER, EVERYONE, LIST, READ, WRITE, Expected, Model, Path, Rights, Rule
from server import Server, expect

GROUP = Group("rights at random", is_shared=False, is_measured=True)  # The race detector would make it slow.
GROUPS = [GROUP]

SEED = 1
ROUNDS, REQUESTS = 20, 500  # of different rules, and for each
FILL_EVERY, LOOK_EVERY = 25, 50
SECONDS = 60
OWNER = "owner"  # may do everything, to look and to fill the tree
USERS = ("ann", "bob", "cat")
NAMES = ("a", "b", "ann")
METHODS = ("PUT", "GET", "DELETE", "MKCOL", "COPY", "MOVE", "PROPFIND", "PROPPATCH", "LOCK")
WEIGHTS = (20, 10, 8, 10, 12, 12, 15, 8, 10)
ALL = frozenset((LIST, READ, WRITE))
FLAGS = (
    "-user-header", "X-User", "-trusted-proxy", "127.0.0.0/8", "-max-infinity", "1000", "-rights", "{folder}/rules.toml",
)
PROPERTY = b'<propertyupdate xmlns="DAV:"><set><prop><v xmlns="urn:v">1</v></prop></set></propertyupdate>'
KINDS = multistatus.propfind(D + "resourcetype", D + "getcontentlength")


def url(path: Path) -> str:
    return "/" + "/".join(path)


def path_of(name: str) -> Path:
    return tuple(it for it in name.split("/") if it)


# ---- random rules and requests


def random_path(chance: random.Random, longest: int = 3) -> Path:
    return tuple(chance.choice(NAMES) for _ in range(chance.randint(1, longest)))


def random_rules(chance: random.Random) -> list[Rule]:
    """Rules for the users, each behind one by which the owner may do everything there."""
    rules = [Rule((OWNER,), (), True, ALL)]
    for _ in range(chance.randint(6, 14)):
        users = chance.choice([(EVERYONE,), (chance.choice(USERS),), tuple(chance.sample(USERS, 2))])
        path = random_path(chance) if chance.random() < 0.75 else ()
        if chance.random() < 0.15:
            path = (*path[:1], CALLER)
        allow = frozenset(it for it in ALL if chance.random() < 0.7)
        rules.append(Rule((OWNER,), path, True, ALL))
        rules.append(Rule(users, path, chance.random() < 0.8, allow))
    return rules


def text_of(rules: list[Rule]) -> str:
    """Rules in TOML. Each that is for more than one user has a group of its own."""
    groups, tables = ["[groups]"], []
    for number, rule in enumerate(rules, 1):
        who = f'user = "{rule.users[0]}"'
        if rule.users == (EVERYONE,):
            who = "everyone = true"
        elif len(rule.users) > 1:
            groups.append(f"g{number} = {list(rule.users)}")
            who = f'group = "g{number}"'
        place = "at_and_below" if rule.deep else "at"
        tables.append(f'[[rule]]\n{who}\n{place} = "{url(rule.path)}"\nallow = {sorted(rule.allow)}')
    return "\n".join(groups) + "\n\n" + "\n\n".join(tables) + "\n"


class Asked(typing.NamedTuple):
    """A request. `depth` is also that of a LOCK, and `length` that of the body of a PUT."""

    user: str
    method: str
    path: Path
    target: Path = ()
    depth: str = "0"
    length: int = 0

    def fields(self) -> dict[str, str]:
        fields = {"X-User": self.user}
        if self.method in ("PROPFIND", "LOCK"):
            fields["Depth"] = self.depth
        if self.method in ("COPY", "MOVE"):
            fields["Destination"] = url(self.target)
        return fields

    def body(self) -> bytes | None:
        bodies = {"PUT": b"x" * self.length, "PROPPATCH": PROPERTY, "LOCK": multistatus.lockinfo(), "PROPFIND": KINDS}
        return bodies.get(self.method)

    def expected(self, model: Model, may: Rights) -> Expected:
        """What must come. The model is changed as the server must be."""
        match self.method:
            case "PUT":
                return model.put(may, self.path, self.length)
            case "PROPFIND" | "LOCK":
                return getattr(model, self.method.lower())(may, self.path, self.depth)
            case "COPY" | "MOVE":
                return model.transfer(may, self.path, self.target, self.method == "MOVE")
            case _:
                return getattr(model, self.method.lower())(may, self.path)


def random_request(chance: random.Random, number: int) -> Asked:
    method = chance.choices(METHODS, WEIGHTS)[0]
    path, target = random_path(chance), random_path(chance)
    while target[: len(path)] == path[: len(target)]:  # One is above the other, or they are the same.
        target = random_path(chance)
    if method in ("GET", "PROPFIND") and chance.random() < 0.2:
        path = ()
    depth = chance.choice(["0", "infinity" if method == "LOCK" else "1"])
    return Asked(chance.choice(USERS), method, path, target, depth, number)


# ---- the server and the model side by side


class Compared:
    """A server and its model, after the same requests."""

    def __init__(self, server: Server):
        self.server = server
        self.connection = server.connect()
        self.model = Model()
        self.rules: list[Rule] = []
        self.counts: dict[int, int] = {}

    def set_rules(self, rules: list[Rule]):
        """Has the server read rules by SIGHUP, and waits until they hold."""
        self.rules = rules
        (self.server.files / "rules.toml").write_text(text_of(rules))
        start = self.server.log_length()
        self.server.process.send_signal(signal.SIGHUP)
        end = time.monotonic() + 10
        while "hold from now on" not in self.server.log(start):
            if time.monotonic() > end:
                raise Wrong(f"expected that these rules hold within 10 s:\n{text_of(rules)}\n{self.server.log(start)}")
            time.sleep(0.005)

    def ask(self, method: str, path: Path, body: bytes | None, fields: dict[str, str]) -> Answer:
        self.connection.request(method, url(path), body, fields)
        answer = self.connection.answer(method)
        if answer.is_last():
            self.connection.close()
            self.connection = self.server.connect()
        return answer

    def do(self, asked: Asked):
        """Sends a request, and compares its response."""
        answer = self.ask(asked.method, asked.path, asked.body(), asked.fields())
        before = dict(self.model.tree)
        wanted = asked.expected(self.model, Rights(self.rules, asked.user))
        got = paths_in(answer) if answer.status == 207 else set()
        self.counts[answer.status] = self.counts.get(answer.status, 0) + 1
        if answer.status not in wanted.statuses or answer.status == 207 and got != wanted.paths:
            there = f"by the rules\n{text_of(self.rules)}\nover\n{before}"
            raise Wrong(f"{asked}\n  expected {wanted}, got {answer}\n{there}")
        if asked.method == "GET" and answer.status == 200 and asked.path:
            expect(f"the length of {url(asked.path)}", len(answer.body), self.model.tree[asked.path])
        if asked.method == "LOCK" and answer.status in (200, 201):
            self.unlock(asked, multistatus.token_of(answer))
        if answer.status in (207, 403) and self.model.tree != before:
            self.look(asked)

    def unlock(self, asked: Asked, token: str):
        answer = self.ask("UNLOCK", asked.path, None, {"X-User": asked.user, "Lock-Token": token})
        expect("the status of UNLOCK", answer.status, 204)

    def look(self, after):
        """Compares what is there."""
        answer = self.ask("PROPFIND", (), KINDS, {"X-User": OWNER, "Depth": "infinity"})
        found = {}
        for name, resource in multistatus.resources(answer).items():
            length = resource.text(D + "getcontentlength")
            found[path_of(name)] = None if resource.is_collection() else int(length)
        del found[()]
        if found != self.model.tree:
            different = set(found.items()) ^ set(self.model.tree.items())
            raise Wrong(f"after {after}: there and in the model is not the same: {different}\n{text_of(self.rules)}")

    def fill(self, chance: random.Random, number: int):
        """Makes about half of what is not there, as the owner."""
        paths = [(one,) for one in NAMES] + [(one, two) for one in NAMES for two in NAMES]
        for path in paths + [(*it, name) for it in paths[len(NAMES) :] for name in NAMES]:
            if not self.model.exists(path) and self.model.is_directory(path[:-1]) and chance.random() < 0.5:
                method = "MKCOL" if chance.random() < 0.8 - 0.2 * len(path) else "PUT"
                self.do(Asked(OWNER, method, path, length=number))


def paths_in(answer: Answer) -> set[Path]:
    """The paths of a multistatus. Each of a response that has a status must be refused."""
    found = multistatus.resources(answer)
    for name, resource in found.items():
        if resource.status not in (None, 403):
            raise Wrong(f"expected 403 of {name}, got {resource.status}")
    return {path_of(it) for it in found}


@GROUP.check(f"{ROUNDS * REQUESTS} requests are answered and leave what a model of the rules says", seconds=SECONDS)
def compared(starter: Starter):
    chance = random.Random(SEED)
    starter.write("rules.toml", text_of([Rule((OWNER,), (), True, ALL)]))
    both = Compared(starter.start(*FLAGS))
    for number in range(ROUNDS * REQUESTS):
        if number % REQUESTS == 0:
            both.set_rules(random_rules(chance))
        if number % FILL_EVERY == 0:
            both.fill(chance, number)
        both.do(random_request(chance, number))
        if number % LOOK_EVERY == 0:
            both.look(f"request {number}")
    both.look("all")
    both.server.stop()
    return "the statuses were " + ", ".join(f"{status}: {count}" for status, count in sorted(both.counts.items()))
