"""Makes a package for each holder, to print or to send: one HTML file with all accounts of the holder, and the
statement of each as csv.

FOLDER gets HOLDER.html and HOLDER-ACCOUNT.csv, and must not be there before. What others own, decide or tried is in
none of them, and no page leads to another one. A page begins with who sends it ([sender] of office.ini: name, mail),
and what to do by when ([due] there). Each account begins with what waits and what was refused. With --from
the statements begin on an earlier day: what was not due or was refused then, and was done later, is told as done later.
An account that had another holder on one of these days begins with the first day of its holder of the last one; the
statement of the other holder is made with --day.
Names are those of the folder of days (./day label), or of the file of --labels: rows user,NUMBER,NAME,
holder,NUMBER,NAME and account,NUMBER,NAME, in UTF-8. A letter tells the head of the folder, by which ./day audit
--since sees later whether days were changed, and the SHA-256 of each csv; it names no account but its holder's. With
--pairs the days are those of paths, and the file of --pending says what waits since earlier ones.

A day that is not released is told, since it may be undone behind its letters: --release releases it with them.

exit status: 0 if the packages are made, 1 if they are, and their last day is not released.
"""
import argparse
import functools
from dataclasses import replace

from registry_tools import voice
from registry_tools.cli import asked, named, words
from registry_tools.elsewhere import NewPlace, Source
from registry_tools.errors import FOUND, WordsFault
from registry_tools.notes import LOOK
from registry_tools.office import folder, release
from registry_tools.texts import namebook
from registry_tools.office.approvals import AskedFor
from registry_tools.office.office import By, Office
from registry_tools.pages import send
from registry_tools.pages.send import Send, Sent
from registry_tools.questions import days
from registry_tools.store.events import HEAD_DIGITS, Event

EXAMPLE = "./day send out/sent --day 2025-09-24 --holder 5502 --office out/office"


def add_words(parser: argparse.ArgumentParser) -> None:
    """Tells a parser the words of the command."""
    parser.add_argument("folder", metavar="FOLDER", type=NewPlace, help="the folder that is made")
    last = "the last day of the statements; without it, the last settled one"
    parser.add_argument("--day", metavar="DATE", help=last)
    parser.add_argument("--from", dest="begin", metavar="DATE", help="the first day; without it, the last one alone")
    parser.add_argument("--holder", type=int, nargs="+", metavar="H", help="only these holders")
    named.add_words(parser)
    waits = "with --pairs: the pending file of ./day next, behind the last of them"
    parser.add_argument("--pending", metavar="FILE", type=Source, help=waits)
    eml = "make a message of each package, too, HOLDER.eml, which a mail program opens as a draft"
    parser.add_argument("--eml", action="store_true", help=eml)
    mails = "with --eml: to whom the messages are, a row HOLDER,ADDRESS for each address"
    parser.add_argument("--mails", metavar="FILE", type=Source, help=mails)
    parser.add_argument("--release", action="store_true", help="release the day with its letters")
    asked.add_words(parser)
    words.add_who(parser)


def run(said: argparse.Namespace) -> int:
    """Runs the command, and answers the exit status."""
    asked.must_be_one_place(said)
    made, status = (of_pairs(said), 0) if said.pairs else of_folder(said)
    print(f"{said.folder}: packages {made.holders}, accounts {made.accounts}")
    return status


def send_of(said: argparse.Namespace, settled: days.Days) -> Send:
    """Which packages the words ask for."""
    words_of = (voice.option("from"), said.begin), (voice.option("day"), said.day)
    begin, end = (asked.date_or(name, word, None) for name, word in words_of)
    first, last = send.span_of(settled.dates, begin, end)
    if said.mails is not None and not said.eml:
        raise WordsFault("--mails is for --eml")
    holders = tuple(said.holder) if said.holder else None
    return Send(first, last, holders, said.pending, as_messages=said.eml, mails=said.mails)


def of_pairs(said: argparse.Namespace) -> Sent:
    """Makes the packages of pairs of paths."""
    settled = days.of_pairs(days.pairs_named(said.pairs))
    wanted = send_of(said, settled)
    if said.release:
        raise WordsFault("--release is for a folder: paths are not released")
    return send.send(settled, named.labels_of(said), wanted, said.folder, lambda: None)


def of_folder(said: argparse.Namespace) -> tuple[Sent, int]:
    """Makes the packages of a folder, and releases their last day with them, if the words ask for it. Answers also the
    exit status."""
    if said.pending:
        raise WordsFault("--pending is for --pairs: a folder knows what waits")
    with folder.opened(said.office) as office, days.telling_of_tables(office.store.path):
        settled = days.of_store(office.store)
        wanted = send_of(said, settled)
        day = office.events.day_of(wanted.end)
        assert day is not None  # (it is one of the dates)
        settings, waiting = office.settings, office.store.kept(day, "waiting")
        wanted = replace(wanted, pending=waiting, sender=settings.letters_from, due=settings.due)
        names = office.names() if said.labels is None else namebook.read(said.labels)
        by, is_released = words.by(said, office), office.events.is_released(day)
        if not is_released and said.release:
            must_be_proved(day)
        elif not is_released:
            way = voice.either("--release releases it with them", "its box on the page Send releases it")
            words.to_errors(f"{LOOK}: {day.date} is not released: it may be undone behind its letters; {way}")
        # (all letters are there, and get their names behind it: no day is taken back behind its letters)
        made = send.send(settled, names, wanted, said.folder, functools.partial(keep, said, office, by, day))
        return made, 0 if is_released or said.release else FOUND


def keep(said: argparse.Namespace, office: Office, by: By, day: Event) -> None:
    """Releases the day of the letters, if the words ask for it and it is not released; else it has to be there
    still."""
    if not said.release or office.events.is_released(day):
        must_still_be_there(office, day)
        return
    came = release.release_if_there(office, by, day, f"letters in {said.folder}")
    if isinstance(came, AskedFor):
        words.tell_asked_for(came)
        raise WordsFault(f"{day.date} is not released yet, and nothing was made")
    if came:
        words.to_errors(f"head: {came.event.line[:HEAD_DIGITS]}")
    words.to_errors(f"{day.date} is released: it is not undone any more")


def must_be_proved(day: Event) -> None:
    """Ends the command if a day is to be released of which nothing proves the report."""
    doubt = release.doubt_of(day)
    if doubt:
        way = f"{voice.command('release', day.date, '--yes')} releases it"
        raise WordsFault(f"{voice.option('release')}: {day.date} {doubt}", way, "; ")


def must_still_be_there(office: Office, day: Event) -> None:
    """Ends the command if somebody took the day of the letters back while they were made."""
    with office.store.reading():
        event = office.store.events.day_of(day.date)
    if event is None or event.line != day.line:
        raise WordsFault(f"{day.date} was undone meanwhile", "look once more")
