"""The users of the checks: their names, passwords and lines of a file of htpasswd (bcrypt)."""
import base64

ANNA = "anna", "open sesame"
BERT = "bert", "pass:w\u00f6rt"
CHANGED = "changed"
ANNA_LINE = "anna:$2y$05$4HEJcbTrDmnsr.bCGL.sFe1l0OAwcY5msz.F3u0J6LqYNitmyYqX6\n"
ANNA_CHANGED_LINE = "anna:$2y$05$2dk7qo63C62UmwdROT4lZuT9Ir9Pv30ZsiDylxDOWYfbwdLi4DQXq\n"
BERT_LINE = "bert:$2y$05$yik1TG7htM8qQp7.LjF5zOAJQrtqbc3DcB04uengPqr69Ec.6SHB.\n"
FILES = {"users.txt": ANNA_LINE + BERT_LINE}
FLAGS = "-users", "{users}"


def basic(name: str, password: str) -> dict[str, str]:
    """The header field with which a client sends a user and a password (RFC 7617)."""
    return {"Authorization": "Basic " + base64.b64encode(f"{name}:{password}".encode()).decode()}


AS_ANNA = basic(*ANNA)
AS_BERT = basic(*BERT)
