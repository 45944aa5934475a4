"""Letters that can be sent: they begin with who sends them and what to do by when; and messages for mail programs, into
whose heads no name can put a line."""
from __future__ import annotations

import email
import email.policy
import hashlib
import re
from email.message import EmailMessage
from pathlib import Path

import pytest

pytest.importorskip("hypothesis", reason="hypothesis is not installed (python3-hypothesis)")

from hypothesis import given, settings
from hypothesis import strategies as st

from harness import TOP, Said
from offices import must_do, must_do_either
from reread import Page

from registry_tools.errors import FileFault
from registry_tools.pages import mail
from registry_tools.texts.sender import Sender, must_be_address

WEEK = TOP / "examples/week"
SENDER = "[sender]\nname = Büro, \"für\" (Emissionen) <x@y.example>\nmail = office@example.org\n"
DUE = "[due]\nsurrender = 09-30\nemissions = 03-31\n"
# The lines that the head of a message has.
HEAD = ["Subject", "From", "To", "X-Unsent", "MIME-Version", "Content-Type"]


@pytest.fixture(scope="module")
def office(tmp_path_factory: pytest.TempPathFactory) -> Path:
    """A folder with two days of the week."""
    path = tmp_path_factory.mktemp("letters") / "office"
    own = ["--office", str(path)]
    must_do(["init", own[1], str(WEEK / "monday.csv")], ["close", "2025-09-22", "--second", *own])
    must_do_either(["hand-in", str(WEEK / "tuesday-do.csv"), str(WEEK / "tuesday-work.csv"), *own])
    must_do(["close", "2025-09-23", "--second", "--yes", *own])
    return path


def with_settings(office: Path, more: str) -> None:
    """The settings of the folder with these lines behind them."""
    path = office / "office.ini"
    path.write_text(path.read_text().partition("[due]")[0].partition("[sender]")[0] + more)


def sent(office: Path, folder: Path, *words: object) -> Path:
    said = Said("send", folder, "--office", office, *words)
    assert said.status == 1, said
    return folder


def begin_of(path: Path) -> list[str]:
    """The words of a page before its first account."""
    main = path.read_text().partition("<main id='main'>")[2].partition("<section>")[0]
    return [line for line in re.sub("<[^>]*>", "\n", main).replace("&quot;", '"').splitlines() if line]


def test_how_a_letter_begins(office: Path, tmp_path: Path) -> None:
    """Who sends it, whose it is, and then what to do, with the deadlines of the office; what is over is told so."""
    with_settings(office, DUE.replace("09-30", "09-23") + SENDER.replace("<x@y.example>", "&"))
    first = sent(office, tmp_path / "first")
    begin = begin_of(first / "5502.html")
    assert begin[0] == 'From Büro, "für" (Emissionen) &amp;, office@example.org.' and begin[1] == "Holder 5502"
    todo = "Surrender 600 allowances for 2024 (account 100377)."
    assert begin[3:] == ["What to do", f"By Tuesday 23 September 2025: {todo}"]
    earlier = sent(office, tmp_path / "earlier", "--day", "2025-09-22", "--holder", "9004")
    assert begin_of(earlier / "9004.html")[3:] == ["What to do", "Nothing has to be done."]
    with_settings(office, DUE.replace("09-30", "09-01"))
    late = begin_of(sent(office, tmp_path / "late") / "5502.html")
    assert late[0] == "From the registry." and late[4] == f"Overdue since Monday 1 September 2025: {todo}"
    with_settings(office, "")
    monday = sent(office, tmp_path / "monday", "--day", "2025-09-22", "--holder", "5501") / "5501.html"
    assert begin_of(monday)[4:] == [
        "Surrender 38,200 allowances for 2024 (account 100210).",
        "Read below what was refused, and what to do (account 100210).",
    ]
    with_settings(office, DUE.replace("03-31", "11-30"))
    monday = sent(office, tmp_path / "of emissions", "--day", "2025-09-22", "--holder", "5502") / "5502.html"
    assert begin_of(monday)[4] == "By Sunday 30 November 2025: Report the emissions of 2024 (account 100377)."
    assert Page(monday.read_text()).headings[:2] == ["Holder 5502", "What to do"]


def test_messages(office: Path, tmp_path: Path) -> None:
    """One for each holder, with its page and tables as they lie in the folder; made again, it is the same."""
    with_settings(office, DUE + SENDER)
    mails = tmp_path / "mails.csv"
    mails.write_text("5501,a@example.org\n5501,b.c+d@mail.example.org\n5502,c@example.org\n")
    made = sent(office, tmp_path / "made", "--eml", "--mails", mails)
    again = sent(office, tmp_path / "again", "--eml", "--mails", mails)
    found = sorted(made.glob("*.eml"))
    assert [path.stem for path in found] == sorted(path.stem for path in made.glob("*.html")) and found
    for path in found:
        assert path.read_bytes() == (again / path.name).read_bytes()
        message = read(path.read_bytes())
        assert message["Subject"] == f"Registry: statements of holder {path.stem}, 2025-09-23"
        assert [(own.display_name, own.addr_spec) for own in message["From"].addresses] == [
            ('Büro, "für" (Emissionen) <x@y.example>', "office@example.org"),
        ]
        own = [own.partition(",")[2] for own in mails.read_text().split() if own.startswith(f"{path.stem},")]
        assert [to.addr_spec for to in (message["To"].addresses if own else ())] == own
        files = {part.get_filename(): part.get_payload(decode=True) for part in message.iter_attachments()}
        lie = {other.name for other in made.glob(f"{path.stem}*") if other.suffix != ".eml"}
        assert files == {name: (made / name).read_bytes() for name in lie}
        for name in lie - {f"{path.stem}.html"}:
            told = f"{name}, whose SHA-256 is {hashlib.sha256((made / name).read_bytes()).hexdigest()}."
            assert told in (made / f"{path.stem}.html").read_text()
        body = message.get_body()
        assert isinstance(body, EmailMessage)
        assert all(line in body.get_content() for line in begin_lines(made / f"{path.stem}.html"))


def begin_lines(path: Path) -> list[str]:
    """What the body of a message tells of a page: who sends it, whose it is, and what is to be done."""
    return [line.replace("&lt;", "<").replace("&gt;", ">") for line in begin_of(path)]


def read(content: bytes) -> EmailMessage:
    """A message as a mail program reads it. Its head has the lines that it may have, and no others."""
    message = email.message_from_bytes(content, policy=email.policy.default)
    assert isinstance(message, EmailMessage) and not message.defects
    head = content.partition(b"\r\n\r\n")[0].decode("ascii")
    names = [line.partition(":")[0] for line in head.split("\r\n") if not line.startswith((" ", "\t"))]
    assert names == [name for name in HEAD if name in names] and "\n" not in head.replace("\r\n", "")
    return message


# What might be a line of its own, or a word that says another one by numbers.
SNEAKY = st.text(st.sampled_from("a,.:;<>@()\"\\ \r\n\t\v\f\0\x1c\x85\u2028\u2029=?_Qq0AD\u202eü"), max_size=40) | (
    st.sampled_from([
        "=?utf-8?q?a=0D=0ABcc:_x@y.example?=", "=?utf-8?b?DQpCY2M6IHhAeQ==?=", "a\r\nBcc: x@y.example", "a" * 500,
    ])
)  # fmt: skip


@given(SNEAKY, SNEAKY, st.lists(SNEAKY, max_size=3), SNEAKY, SNEAKY)
@settings(max_examples=300, deadline=None)
def test_no_name_puts_a_line_into_a_head(name: str, address: str, to: list[str], title: str, task: str) -> None:
    """What is taken as a sender or an address makes a message with these lines alone; names stand in its body."""
    known = [own for own in to if is_address(own)] + ["good@example.org"]
    sender = Sender(name if is_name(name) else "", address if is_address(address) else "office@example.org")
    files = {"5501.html": f"<p>{title}</p>", "5501-1.csv": "end\n"}
    content = mail.message(5501, "2025-09-22", sender, known, (title, "A day.", [task]), files)
    message = read(content)
    assert [own.addr_spec for own in message["To"].addresses] == known
    assert [(own.display_name, own.addr_spec) for own in message["From"].addresses] == [(sender.name, sender.mail)]
    assert [part.get_filename() for part in message.iter_attachments()] == [*files]


def is_address(word: str) -> bool:
    try:
        must_be_address("mails.csv", 1, word)
    except FileFault:
        return False
    return True


def is_name(word: str) -> bool:
    """Whether office.ini may name a sender so."""
    from configparser import ConfigParser

    from registry_tools.texts import sender

    parser = ConfigParser(interpolation=None)
    parser.read_dict({"sender": {"name": word}})
    try:
        return sender.read(Path("office.ini"), parser).name == word
    except FileFault:
        return False


@pytest.mark.parametrize("lines, told", [
    ("name = A\n  Bcc: x@y.example", "name: found 'A<line feed>Bcc: x@y.example'"),
    ("name = =?utf-8?q?a=0ABcc:_x@y.example?=", "name: found '=?utf-8?q?"), ("mail = x", "mail: found 'x'"),
    ("mail = a@b.example, c@d.example", "mail: found 'a@b.example, c@d.example'"),
    ("phone = 1", "[sender]: found 'phone'"), (f"name = {'a' * 300}", "name: found 'aaa"),
])  # fmt: skip
def test_a_wrong_sender(office: Path, tmp_path: Path, lines: str, told: str) -> None:
    with_settings(office, f"[sender]\n{lines}\n")
    said = Said("send", tmp_path / "sent", "--eml", "--office", office)
    assert (said.status, told in said.errors, (tmp_path / "sent").exists()) == (3, True, False), said


@pytest.mark.parametrize("rows, told", {
    "5501,a@example.org\n5502\n": "mails.csv:2: row: found '5502'; expected HOLDER,ADDRESS",
    "5501,\"a@b.example\nBcc: x@y.example\"\n": "mails.csv:1: mail: found 'a@b.example<line feed>Bcc: x@y.e",
    "5501,Anna <a@example.org>\n": "mail: found 'Anna <a@example.org>'",
    "9,a@example.org\n": "HOLDER: found 9; expected",
    "x,a@example.org\n": "row: found 'x,a@example.org'",
}.items())  # fmt: skip
def test_wrong_addresses(office: Path, tmp_path: Path, rows: str, told: str) -> None:
    with_settings(office, "")
    (tmp_path / "mails.csv").write_text(rows)
    said = Said("send", tmp_path / "sent", "--eml", "--mails", tmp_path / "mails.csv", "--office", office)
    assert (said.status, told in said.errors, (tmp_path / "sent").exists()) == (3, True, False), said
    alone = Said("send", tmp_path / "sent", "--mails", tmp_path / "mails.csv", "--office", office)
    assert alone.status == 2 and "--mails is for --eml" in alone.errors
