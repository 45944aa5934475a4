"""Serves a folder of days to a browser on this machine: what waits and was handed in, the next day, closing it, all
days, accounts and questions. It prints a link with a secret, which lets its reader in; nobody else gets in. Each change
is a command, with the same journal, lock and refusals. Ctrl-C ends it.

With --who one name stands in the journal; without it each browser says its own once. --proxy-user HEADER takes it from
this header, which a proxy before the desk sets. The proxy shows that it is the one by the header X-Desk-Secret, with
what stands in the file of --proxy-secret, which nobody else may read; all other requests are refused. --look shows all,
lets audits begin, and changes nothing. Standard error has a log: who came in, what was begun, what was refused and why.

With --socket PATH several logins of this machine come to a socket, and the system says who each of them is: nobody
types a name. office.ini says what each may do, and whom it does not name gets nothing; the login of the desk needs the
right proxy there, since it speaks for them. From their own machine they open a port by ssh -L 8424:PATH, and a link
that ./day link prints on this one. A login with the right proxy says by a header, X-Remote-User or the one of
--proxy-user, for whom it comes. Who may open PATH at all, the folder says in which it lies.

There ./day --desk PATH COMMAND .. gives each command of the folder, by the same logins: it reads and writes the files
of its words where it is given, with the rights there. REGISTRY_DESK=PATH stands in place of --desk PATH; and desk =
PATH in office.ini names it to whoever may not write the folder of --office. No desk makes, upgrades or copies a folder,
or runs a program that the words name.

It needs Flask and waitress, and gunicorn for a socket: apt-get install python3-flask python3-waitress
python3-gunicorn.

exit status: 0 if Ctrl-C ended it.
"""
import argparse
import re

from registry_tools.cli import serving, words
from registry_tools.cli.serving import AtPort, AtSocket
from registry_tools.errors import WordsFault
from registry_tools.office import folder

EXAMPLE = "./day desk --office out/office"
PORT = 8424


def add_words(parser: argparse.ArgumentParser) -> None:
    """Tells a parser the words of the command."""
    parser.add_argument("--port", type=int, default=PORT, metavar="N", help=f"the port; without it, {PORT}")
    parser.add_argument("--look", action="store_true", help="show all, and change nothing")
    parser.add_argument("--who", metavar="NAME", help="who works at it; without it, each browser says its name once")
    parser.add_argument("--proxy-user", metavar="HEADER", help="the header by which a proxy names who works at it")
    parser.add_argument("--proxy-secret", metavar="FILE", help="a file of 0600: what the proxy adds as X-Desk-Secret")
    parser.add_argument("--socket", metavar="PATH", help="a socket in place of a port: the system says who comes")
    words.add_office(parser)


def run(said: argparse.Namespace) -> int:
    """Runs the command, and answers the exit status."""
    return serving.serve(asked_of(said))


def asked_of(said: argparse.Namespace) -> AtPort | AtSocket:
    """What the words ask for. Raises WordsFault if they do not fit together."""
    path = folder.folder_of(said.office).resolve()
    who = words.one_line("who", said.who) if said.who is not None else None
    if who is not None and said.proxy_user is not None:
        raise WordsFault("--proxy-user stands in place of --who")
    if said.proxy_user is not None and not re.fullmatch("[A-Za-z0-9-]+", said.proxy_user):
        raise WordsFault(f"--proxy-user {said.proxy_user} is no name of a header")
    if said.socket is not None:
        if who is not None or said.proxy_secret is not None or said.port != PORT:
            raise WordsFault("--socket stands in place of --port, --who and --proxy-secret: the system says who comes")
        return AtSocket(path, said.socket, said.proxy_user, said.look)
    if (said.proxy_user is None) != (said.proxy_secret is None):
        raise WordsFault("--proxy-user and --proxy-secret stand together: the header counts from this proxy alone")
    proxy = None if said.proxy_user is None else (said.proxy_user, said.proxy_secret)
    return AtPort(path, said.port, who, proxy, said.look)
