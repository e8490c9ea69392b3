"""HTTP::DAV, a library for Perl: a script that calls it, of which each line is a check."""
import pathlib
import typing

import accounts
from connection import Wrong
from harness import Group
from server import PROCESSES

SECONDS = 40
CONTENT = "what HTTP::DAV sends\n" * 100
PLAIN = Group("HTTP::DAV", needs="dave")
WITH_USER = Group("HTTP::DAV with a user and a prefix", "-prefix", "/dav", *accounts.FLAGS, files=accounts.FILES,
                  needs="dave")
GROUPS = [PLAIN, WITH_USER]


class Call(typing.NamedTuple):
    """A call, and what it must return: `$url` is the folder of the server, `$here` one on disk."""

    name: str
    text: str
    printed: str = "1"


BEGIN = """\
use strict;
use HTTP::DAV;
my ($url, $here, $user, $password) = @ARGV;
my $dav = HTTP::DAV->new;
$dav->credentials(-user => $user, -pass => $password, -url => $url);
sub kind { my $it = shift; $it->is_collection ? "folder" : $it->get_property("getcontentlength") }
sub kinds {
    my $all = $dav->propfind(-url => shift, -depth => 1) or return "none";
    my @found = map { $_->get_property("rel_uri") . ":" . kind($_) } $all->get_resourcelist->get_resources;
    return join " ", kind($all), sort @found;
}
sub files { join " ", map { s{.*/}{}r } sort glob(quotemeta(shift) . "/*") }
sub content { open my $file, "<", shift or return "none"; local $/; <$file> }
"""
LENGTH = len(CONTENT)
CALLS = [
    Call("open", '$dav->open(-url => "$url/")'),
    Call("mkcol", '$dav->mkcol(-url => "perl") && $dav->cwd(-url => "perl") && $dav->mkcol(-url => "folder")'),
    Call("put", '$dav->put(-local => "$here/sent.txt", -url => "a.txt")'),
    Call("put of a name with spaces", '$dav->put(-local => "$here/sent.txt", -url => "two words (1).txt")'),
    Call("propfind says what is a folder", 'kinds("")', f"folder a.txt:{LENGTH} folder/:folder two words (1).txt:{LENGTH}"),
    Call("propfind of a file", 'kind($dav->propfind(-url => "a.txt", -depth => 0))', f"{LENGTH}"),
    Call("lock", '$dav->lock(-url => "a.txt", -timeout => "5m", -owner => "perl")'),
    Call("put under the lock", '$dav->put(-local => "$here/sent.txt", -url => "a.txt")'),
    Call("unlock", '$dav->unlock(-url => "a.txt")'),
    Call("proppatch", '$dav->proppatch(-url => "a.txt", -namespace => "urn:x", -propname => "colour", -propvalue => "blue") && 1'),
    Call("the property is found", '$dav->propfind(-url => "a.txt", -depth => 0)->get_property("colour")', "blue"),
    Call("copy", '$dav->copy(-url => "a.txt", -dest => "$url/perl/b.txt")'),
    Call("move", '$dav->move(-url => "b.txt", -dest => "$url/perl/folder/c.txt")'),
    Call("the moved file is listed", 'kinds("folder")', f"folder c.txt:{LENGTH}"),
    Call("get", '$dav->get(-url => "folder/c.txt", -to => "$here/got") && content("$here/got") eq content("$here/sent.txt")'),
    Call("get of all files of a folder", '$dav->get(-url => "*.txt", -to => "$here/all") && files("$here/all")',
         "a.txt two words (1).txt"),
    Call("delete of a file", '$dav->delete(-url => "a.txt")'),
    Call("delete of a folder", '$dav->delete(-url => "folder")'),
    Call("what is left", 'kinds("")', f"folder two words (1).txt:{LENGTH}"),
]


def script(server):
    """Runs all calls in one script, and takes a note of what each returned."""
    folder: pathlib.Path = server.files / "perl"
    (folder / "all").mkdir(parents=True)
    (folder / "sent.txt").write_text(CONTENT)
    line = 'print "%d: ", eval { %s } // "failed, $@" . $dav->message, "\\n";'
    lines = [line % (number, it.text) for number, it in enumerate(CALLS)]
    (folder / "script").write_text("\n".join([BEGIN, *lines, ""]))
    words = ["perl", folder / "script", server.url(server.prefix), folder, *accounts.ANNA]
    ran = PROCESSES.run(words, SECONDS)
    found = (line.partition(": ") for line in ran.stdout.splitlines())
    server.notes.update(printed={number: value for number, _, value in found}, whole=ran.stdout)
    if ran.returncode != 0:
        raise Wrong(f"expected status 0 of the script, got {ran.returncode}:\n{ran.stdout}")


def call(server, number: int):
    """Checks what a call returned."""
    if server.notes.get("printed", {}).get(str(number)) != CALLS[number].printed:
        raise Wrong(f"expected {CALLS[number].printed!r} of {CALLS[number].text}, got:\n{server.notes.get('whole')}")


for group in GROUPS:
    group.add("the script", script)
    for number, it in enumerate(CALLS):
        group.add(f"{number + 1}. {it.name}", call, number)
