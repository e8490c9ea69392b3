"""Makes the calls of LibreOffice that libreoffice.py asks for, by UNO. Debian's own Python runs it: no other has `uno`.

The arguments are the port on which LibreOffice listens, and the user and the password. Each line of standard input is a
call, a list in JSON of its name and its arguments. Each line of standard output is {"value": ..} or {"error": ".."}.
"""
import json
import sys
import time

import uno
import unohelper
from com.sun.star.beans import PropertyValue
from com.sun.star.task import XInteractionHandler

START_SECONDS = 50
STEP_SECONDS = 0.05


class Handler(unohelper.Base, XInteractionHandler):
    """Answers what LibreOffice asks its user: the password, and read-only for a document that another one has locked."""

    def __init__(self, name: str, password: str):
        self.name = name
        self.password = password

    def handle(self, request):
        answers = {kind.typeName.rpartition(".")[2]: it for it in request.getContinuations() for kind in it.getTypes()}
        if login := answers.get("XInteractionSupplyAuthentication2"):
            login.setUserName(self.name)
            login.setPassword(self.password)
            login.select()
        elif chosen := answers.get("XInteractionApprove") or answers.get("XInteractionAbort"):
            chosen.select()


class Office:
    """A LibreOffice that runs, with at most one document."""

    def __init__(self, port: str, name: str, password: str):
        self.context = connected(port)
        self.desktop = self.service("com.sun.star.frame.Desktop")
        self.handler = Handler(name, password)
        self.files = self.service("com.sun.star.ucb.SimpleFileAccess")
        self.files.setInteractionHandler(self.handler)
        self.document = None

    def service(self, name: str):
        return self.context.ServiceManager.createInstanceWithContext(name, self.context)

    def load(self, url: str):
        handlers = {"InteractionHandler": self.handler, "AuthenticationHandler": self.handler}
        self.document = self.desktop.loadComponentFromURL(url, "_blank", 0, values(Hidden=True, **handlers))
        if self.document is None:
            raise ValueError(f"LibreOffice opens no document {url}")

    # ---- the calls

    def new(self):
        self.load("private:factory/swriter")

    def open(self, url: str) -> dict:
        self.load(url)
        return {"text": self.document.Text.getString(), "is_read_only": self.document.isReadonly()}

    def write(self, text: str):
        self.document.Text.setString(text)

    def save_as(self, url: str):
        self.document.storeAsURL(url, values(FilterName="writer8", InteractionHandler=self.handler))

    def save(self):
        self.document.store()

    def close(self):
        document, self.document = self.document, None
        document.close(True)

    def list(self, url: str) -> dict[str, int | None]:
        """The members of a folder, each with its size, and with none if it is a folder."""
        names = self.files.getFolderContents(url, True)
        return {it: None if self.files.isFolder(it) else self.files.getSize(it) for it in names}

    def exists(self, url: str) -> bool:
        return self.files.exists(url)

    def create_folder(self, url: str):
        self.files.createFolder(url)

    def copy(self, source: str, target: str):
        self.files.copy(source, target)

    def move(self, source: str, target: str):
        self.files.move(source, target)

    def remove(self, url: str):
        self.files.kill(url)

    def end(self):
        self.desktop.terminate()


def values(**pairs) -> tuple:
    return tuple(PropertyValue(Name=name, Value=value) for name, value in pairs.items())


def connected(port: str):
    """The context of the LibreOffice that listens on a port, when it does."""
    own = uno.getComponentContext()
    resolver = own.ServiceManager.createInstanceWithContext("com.sun.star.bridge.UnoUrlResolver", own)
    until = time.monotonic() + START_SECONDS
    while True:
        try:
            return resolver.resolve(f"uno:socket,host=127.0.0.1,port={port};urp;StarOffice.ComponentContext")
        except uno.getClass("com.sun.star.connection.NoConnectException"):
            if time.monotonic() > until:
                raise
            time.sleep(STEP_SECONDS)


def answer(office: Office, name: str, arguments: list) -> dict:
    try:
        return {"value": getattr(office, name)(*arguments)}
    except Exception as error:  # Each failure of a call goes to the check that made it.
        return {"error": f"{type(error).__name__}: {error}"}


def main():
    office = Office(*sys.argv[1:4])
    print(json.dumps({"value": None}), flush=True)
    for line in sys.stdin:
        name, *arguments = json.loads(line)
        print(json.dumps(answer(office, name, arguments)), flush=True)


if __name__ == "__main__":
    main()
