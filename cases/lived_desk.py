"""A week that four people live at a desk by HTTP alone: a clerk, two administrators, two logins of a holder, and an
auditor. Each goes by what a page offers: links by their words, fields by their labels, buttons by what they say. A step
that a page does not offer ends the trial. For cases/run-desk."""
from __future__ import annotations

import html
import os
import re
import urllib.parse
from collections.abc import Iterator
from pathlib import Path

import desks
from harness import TOP, Said, differs
from offices import text_of
from real_desk import Answer, Browser, RealDesk
from second_login import with_lines

from registry_tools.office.people import system_login

WEEK, RULES = TOP / "examples" / "week", TOP / "tools" / "rules.py"
MONDAY, TUESDAY, WEDNESDAY, THURSDAY, FRIDAY = (f"2025-09-{day}" for day in (22, 23, 24, 25, 26))
PEOPLE = {
    "carla": "Carla Enge: hand in", "adam": "Adam Abt: all", "ben": "Ben Dahl: all", "audra": "Audra Aust: look",
    "hanna": "Hanna Holt: holder 5501, user 5101", "hugo": "Hugo Holt: holder 5501, user 5102",
    system_login(): "The desk: proxy",
}  # fmt: skip
NEW_ACCOUNT = b"account,300126,trading,9017,open,no,no,0,0,0\nuser,4201,both\n"
LABEL = re.compile('<label for="f-([^"]*)">(.*?)</label>', re.DOTALL)
CHECK = re.compile(
    r'<label class="check"><input type="(?:checkbox|radio)" name="([^"]*)" value="([^"]*)"[^>]*>(.*?)</label>',
    re.DOTALL,
)
LINK = re.compile('<a [^>]*?href="([^"]*)"[^>]*>(.*?)</a>', re.DOTALL)
FORM = re.compile(r"<form ([^>]*)>(.*?)</form>", re.DOTALL)
Told = tuple[str, object]
Files = list[tuple[str, bytes]]


class Walker:
    """Somebody who goes on by what the page says that they have before them."""

    def __init__(self, desk: RealDesk, login: str, secret: str) -> None:
        self.login = login
        self.browser = Browser(desk, **{"X-User": login, "X-Desk-Secret": secret}).came_in()
        self.page, self.steps = self.browser.get("/"), 0

    @property
    def text(self) -> str:
        return plain(self.page.text)

    def look(self, answer: Answer) -> "Walker":
        """Goes where an answer leads, until a command has ended."""
        while answer.status == 303 or "At work" in answer.text:
            place = answer.headers.get("Location") or f"/jobs/{job_of(answer.text)}"
            answer = self.browser.get(place)
        assert answer.status in (200, 400, 409), f"{self.login}: {answer.status}: {plain(answer.text)[:600]}"
        self.page, self.steps = answer, self.steps + 1
        return self

    def follow(self, words: str) -> "Walker":
        """Follows the link that says this."""
        found = [path for path, own in LINK.findall(self.page.text) if plain(own) == words]
        assert found, f"{self.login} finds no link {words!r}: {self.text[:900]}"
        return self.look(self.browser.get(html.unescape(found[0]).partition("#")[0]))

    def press(self, button: str, files: Files | None = None, **said: str) -> "Walker":
        """Fills in the form that has this button, by the labels of its fields with `_` for blanks, and sends it."""
        there = [inner for _, inner in FORM.findall(self.page.text)]
        found = [place for place, inner in enumerate(there) if button in map(plain, buttons(inner))]
        assert found, f"{self.login} finds no button {button!r}: {self.text[:900]}"
        form, inner = desks.DeskPage(self.page.text).forms[found[0]], there[found[0]]
        names = {plain(words): name for name, words in LABEL.findall(inner)}
        fields = dict(form.fields)
        for label, word in said.items():
            name = next((own for words, own in names.items() if words.startswith(label.replace("_", " "))), None)
            assert name is not None, f"{self.login} finds no field {label!r} among {[*names]}"
            fields[name.partition("-")[0] if name not in fields else name] = word
        for name, value in self.chosen(inner):
            fields[name] = value
        if form.method == "get":
            query = "&".join(f"{name}={urllib.parse.quote(str(word))}" for name, word in fields.items())
            return self.look(self.browser.get(f"{form.action.partition('#')[0]}?{query}"))
        self.boxes = []
        return self.look(self.browser.post(form.action, fields, files or []))

    boxes: list[str] = []

    def choose(self, *words: str) -> "Walker":
        """Ticks the boxes that say this, for the button that is pressed next."""
        self.boxes = [*words]
        return self

    def chosen(self, inner: str) -> Iterator[tuple[str, str]]:
        """The boxes of a form that are ticked."""
        there = [(plain(words), name, value) for name, value, words in CHECK.findall(inner)]
        for words in self.boxes:
            found = [own for own in there if own[0].startswith(words)]
            assert found, f"{self.login} finds no box {words!r} among {there}"
            yield found[0][1:]

    def sees(self, *words: str) -> object:
        """What the page does not say of these."""
        lacking = [word for word in words if word not in self.text]
        return f"{self.login} does not see {lacking}: {self.text[:1500]}" if lacking else None

    def has(self, path: str) -> bytes:
        """A file that a link of the page leads to."""
        assert path in html.unescape(self.page.text), f"{self.login} finds no link to {path}"
        answer = self.browser.get(path)
        assert answer.status == 200, answer
        return answer.text.encode()


def plain(text: str) -> str:
    return " ".join(html.unescape(re.sub("<[^>]*>", " ", text)).split()).replace(" .", ".").replace(" ,", ",")


def buttons(inner: str) -> list[str]:
    return re.findall("<button[^>]*>(.*?)</button>", inner, re.DOTALL)


def job_of(text: str) -> str:
    found = re.search('href="/jobs/([0-9a-f]+)"', text)
    assert found, plain(text)
    return found[1]


def lived_trials(work: Path) -> Iterator[Told]:
    """The week of all of them."""
    work.mkdir()
    office, secret = work / "office", work / "secret"
    secret.write_text(os.urandom(16).hex())
    secret.chmod(0o600)
    said = Said("init", office, WEEK / "monday.csv", "--program", RULES)
    assert said.status == 0, said
    with_lines(office, PEOPLE, "change, close")
    settings = (office / "office.ini").read_text()
    named = settings.replace("[office]\n", "[office]\nname = The Registry of the Week\n", 1)
    (office / "office.ini").write_text(f"{named}[due]\nsurrender = 09-30\n")
    with RealDesk(office, work / "log", "--proxy-user", "X-User", "--proxy-secret", secret) as desk:
        people = {login: Walker(desk, login, secret.read_text()) for login in PEOPLE if login != system_login()}
        for trials in (monday, tuesday, wednesday, thursday, friday, auditor):
            yield from trials(office, people)
        yield "how many steps", None if sum(own.steps for own in people.values()) > 60 else "too few"
    audited = Said("audit", "--second", "--office", office)
    yield "audit of the folder", None if audited.status == 0 else audited


def close_by_two(date: str, in_words: str, people: dict[str, Walker]) -> Iterator[Told]:
    """A day that one administrator asks for and the other one approves."""
    adam, ben = people["adam"], people["ben"]
    adam.follow("Close").choose("by the second answer alone")
    alerts = re.findall("LOOK AT THIS: ", adam.text)
    adam.choose("by the second answer alone", *(["Yes, all the same"] if alerts else []))
    yield f"{date} is asked for", adam.press(f"Yes, close {in_words}").sees("It is asked for, and waits for somebody")
    ben.follow("Today").press(f"Approve close {date} by the second answer")
    yield f"{date} is approved", ben.sees("approved:")
    adam.follow("Close").choose("by the second answer alone", *(["Yes, all the same"] if alerts else []))
    settled = f"{date} is settled by the second answer and filed"
    yield f"{date} is closed", adam.press(f"Yes, close {in_words}").sees(settled)


def hand_in(who: Walker, *names: str) -> object:
    who.follow("Hand in").press("Look at the files", [(name, (WEEK / name).read_bytes()) for name in names])
    return who.press("Yes, hand it in").sees("handed in:", "Done.")


def monday(office: Path, people: dict[str, Walker]) -> Iterator[Told]:
    """The first day: it is closed, and the holder looks at it."""
    yield "the office has its name", people["adam"].sees("The Registry of the Week, today", "No day is settled yet")
    yield "a holder before the first day", people["hanna"].sees("no day is settled yet")
    yield from close_by_two(MONDAY, "Monday 22 September 2025", people)
    hanna = people["hanna"].follow("Today")
    yield "what hanna has to do", hanna.sees("Surrender 38,200 allowances for 2024", "Tuesday 30 September 2025")
    yield "what was refused", hanna.sees("Surrender, 38,200 aviation", "Surrender allowances of an allowed kind")
    yield "what waits", hanna.sees("Transfer to 200045, 1,000 general", WEDNESDAY)


def tuesday(office: Path, people: dict[str, Walker]) -> Iterator[Told]:
    """The clerk hands in files and one instruction; hanna asks for a surrender, and hugo approves it."""
    carla, hanna, hugo = people["carla"], people["hanna"], people["hugo"]
    yield "files of the clerk", hand_in(carla, "tuesday-work.csv")
    carla.follow("Hand in").press("Show its fields", Act="assess", The_account_that_it_is_of="100210")
    carla.press("Look at the instruction", User_who_proposes="901", User_who_approves="902", Year="2024")
    yield "an instruction of the clerk", carla.sees("assessment of 100210 for 2024")
    yield "it is taken", carla.press("Yes, hand it in").sees("Done.")
    yield "who may not close", carla.follow("Close").sees("may hand in, and not close")
    hanna.follow("100210").follow("Ask for something for this account")
    hanna.press("Show its fields", What_you_ask_for="surrender")
    hanna.press("Look at it", Kind_of_allowance="general", Amount="38200", User_who_approves="5102")
    asked = "Surrender, 38,200 general"
    yield "what hanna asks for", hanna.sees(asked, "5102 is asked to approve", "holds 38,400 general")
    yield "it waits for hugo", hanna.press("Yes, hand it in").sees(asked, "waits for 5102, or for the office")
    yield "the office sees it", carla.follow("Today").sees("hand-in by Hanna Holt (hanna)")
    yield "hugo sees it", hugo.follow("Today").sees("waits for you")
    yield "hugo approves it", hugo.press("Approve it").sees("it comes into the next day")
    yield from close_by_two(TUESDAY, "Tuesday 23 September 2025", people)
    yield "it is done", hanna.follow("Today").follow("100210").sees("Surrender", "200")
    text = text_of(office, TUESDAY)
    yield "in the text", None if b",5101,5102,surrender,100210,general,38200" in text else text
    yield "compliance of hanna", hanna.follow("Compliance").sees("surrendered 158,700, emissions 158,700")


def wednesday(office: Path, people: dict[str, Walker]) -> Iterator[Told]:
    """Accounts by hand wait for the other administrator; a name; what was typed wrongly leads back."""
    adam, ben, carla = people["adam"], people["ben"], people["carla"]
    yield "the clerk's files", hand_in(carla, "wednesday-do.csv")
    adam.follow("Hand in").press("Look at the files", [("account.csv", NEW_ACCOUNT)])
    yield "accounts as a whole", adam.press("Yes, hand it in").sees("waits for Ben Dahl", "Done.")
    ben.follow("Today")
    yield "approved", ben.press(approve_button(ben, "place")).sees("approved: place")
    adam.follow("Names").press("Look at the name", What_is_named="holder", Its_number="5501", Its_name="Kalkwerk Nord")
    yield "a holder is named", adam.press("Yes, name it so", Why="a letter").sees("Kalkwerk Nord")
    yield "a wrong search leads on", adam.follow("Find").press("Find", Account="x").sees("Back to what was typed")
    yield "and back", adam.follow("Back to what was typed").sees("Find")
    yield from close_by_two(WEDNESDAY, "Wednesday 24 September 2025", people)
    yield "hanna reads her name", people["hanna"].follow("Today").sees("Kalkwerk Nord (5501)", "Lower the amount")


def thursday(office: Path, people: dict[str, Walker]) -> Iterator[Told]:
    """A day that was closed wrongly is corrected; a table by a mapping; a year's working days."""
    adam, carla = people["adam"], people["carla"]
    yield "the clerk's files", hand_in(carla, "thursday-do.csv")
    yield "the same files once more", refused_twice(carla)
    yield from close_by_two(THURSDAY, "Thursday 25 September 2025", people)
    adam.follow("Days").follow("Correct one").choose("settle by the second answer alone")
    adam.press("Look at what it becomes", [("more.csv", b"do,2025-09-25,901,902,emissions,100210,2025,1\n")],
               Why="it was forgotten", The_day_that_is_wrong=THURSDAY)  # fmt: skip
    yield "what a correction would make", adam.sees("Nothing is corrected yet", "emissions")
    yield "it is corrected or waits", adam.press("Yes, correct it so").sees("It is asked for, and waits")
    people["ben"].follow("Today").press(approve_button(people["ben"], "correct"))
    yield "ben approves it", people["ben"].sees("approved: correct")
    carla.follow("Hand in").press("Look at the working days", Year="2026", but_these="2026-01-01 2026-12-25")
    yield "a year's working days", carla.sees("working days of 2026.csv", "working days 259")
    yield "are handed in", carla.press("Yes, hand it in").sees("Done.")


def approve_button(who: Walker, command: str) -> str:
    """The button of the page that approves a command."""
    found = [plain(own) for own in buttons(who.page.text) if plain(own).startswith(f"Approve {command}")]
    assert found, who.text
    return found[0]


def refused_twice(carla: Walker) -> object:
    carla.follow("Hand in").press("Look at the files", [("again.csv", (WEEK / "thursday-do.csv").read_bytes())])
    return carla.sees("It cannot be taken as it is", "Choose again")


def friday(office: Path, people: dict[str, Walker]) -> Iterator[Told]:
    """The last day: it is closed, released with its letters, and its head is kept."""
    adam, carla = people["adam"], people["carla"]
    yield "the clerk's files", hand_in(carla, "friday-do.csv")
    yield "the next day", carla.follow("The next day").sees("instruction")
    yield from close_by_two(FRIDAY, "Friday 26 September 2025", people)
    adam.follow("Send").choose("release the day")
    refused = adam.press("Make the packages", Up_to=FRIDAY)
    yield "what is not proved is looked at first", refused.sees("not proved; the page Release releases it")
    adam.follow("Days").follow("Look at what it does to release it").choose("Yes, all the same")
    released = adam.press("Yes, release Friday 26 September 2025", Why="letters go out")
    yield "it is released", released.sees("is released")
    yield "letters", adam.follow("Send").press("Make the packages", Up_to=FRIDAY).sees("Download the packages")
    adam.follow("The office")
    yield "who may do what", adam.sees("holder 5501, user 5101", "Audra Aust")
    yield "a copy", adam.press("Make a copy of the folder").sees("Download it")


def auditor(office: Path, people: dict[str, Walker]) -> Iterator[Told]:
    """Who only looks: at days, journal, accounts and tables; and an audit."""
    audra = people["audra"]
    yield "the days", audra.follow("Days").sees(FRIDAY, "adam", "not proved yes")
    audra.follow(MONDAY)
    yield "a day with what was found", audra.sees("Account 100210 is of the kind operator, which may surrender")
    audra.follow("Journal")
    yield "who did what", audra.sees("Adam Abt (adam)", "approved by Ben Dahl (ben)")
    for path in ("/journal.csv", "/journal.json"):
        yield f"the journal as {path}", None if b"hanna" in audra.has(path) else "not"
    audra.follow("Accounts")
    yield "accounts as a table", None if audra.has("/accounts.csv").startswith(b"account,") else "not"
    audra.follow("100377").follow("All that became of it, over all days")
    yield "an account", audra.sees("All that became of it")
    audra.follow("Compliance")
    yield "compliance as a table", None if b"100210" in audra.has("/compliance.csv") else "not"
    audra.follow("Audit").choose("settle each day again by the second answer")
    yield "an audit", audra.press("Begin").sees("0 differences")
    yield "nothing else", audra.follow("Close").sees("may look, and not close")
    yield "nor the office", None if audra.browser.get("/office").status == 403 else "it is there"
    hanna = people["hanna"].follow("Today")
    yield "hanna at the end", differs([hanna.sees("Kalkwerk Nord", "100210"), "100377" in hanna.text], [None, False])
