"""The tables of the rules and of the texts, as data: the names, sentences, columns and limits that the second answer,
the commands of ./day and the documents share. What a check decides, and what an act does, stands in `second`.

`tools/tables` writes the tables of docs/RULES.md and docs/FORMATS.md from these, and what is made of both; a case
compares. A sentence may have `code` between backquotes, and links as Markdown has them, from docs/RULES.md.
"""
from typing import NamedTuple

# The version of the program, of the library and of this package.
VERSION = "1.2"

# The limits. The most of each list, of each number, and of a day.
MOST_INSTRUCTIONS, MOST_ACCOUNTS = 16_384, 100_000
MOST_ADMINISTRATORS, MOST_REPRESENTATIVES, MOST_TRUSTED, MOST_ROWS = 64, 64, 256, 4_096
MOST_PERIODS, MOST_SHARES, MOST_WORKERS = 8, 8, 8
MOST_HELD = MOST_RETIRED = MOST_RECORD = MOST_CORRECTION = 10**15
MOST_FIGURE, MOST_TONNES = 4 * 10**15, 10**12
MOST_NUMBER, MOST_LAG, MOST_U64 = 999_999_999, 1_000, 2**64 - 1
FIRST_YEAR, LAST_YEAR = 2021, 2100

# The kinds of allowance, the rights of a representative, and the other words of a day text.
ALLOWANCES = ("general", "aviation")
RIGHTS, YES_NO, RETIRED_AS = ("propose", "approve", "both"), ("yes", "no"), ("surrender", "deletion")
# The kinds of account with their names, and the statuses with what an account of each allows.
KINDS = {
    "total": "EU total quantity account",
    "allocation": "EU allocation account",
    "operator": "operator holding account",
    "aircraft": "aircraft operator holding account",
    "trading": "trading account",
}
STATUSES = {
    "open": "everything",
    "blocked": "everything, except a transfer from it and a deletion on it",
    "excluded": "the same as blocked, except that no figure is determined for it",
    "closed": "nothing goes in or out, and no act is done on it",
}
# The lags of a day, in working days, by the fields of the row `lags`.
LAGS = {
    "TRUSTED": "the lag of transfers to trusted accounts",
    "OTHER": "the lag of all other transfers",
    "LIST": "the lag of [additions](#the-addition-to-a-trusted-list) to a trusted list: how long it takes until they "
    "are in effect",
    "REVERSAL": "the window for [reversals](#the-reversal) of surrenders and deletions",
}


class Act(NamedTuple):
    """An act: its word in a text, its name, its fields, the accounts that a log row of it has, who proposes and
    approves it, how it is told ({0} is its first field; of a distribution, nothing), and from which accounts to which
    it is, each with its lag. A distribution has its last two fields once for each account that receives."""

    word: str
    name: str
    fields: str
    logged: str
    by: str
    sentence: str
    between: tuple[tuple[str, str, str], ...]

    @property
    def anchor(self) -> str:
        """Where docs/RULES.md tells of it."""
        return "the-" + self.name.replace(" ", "-")


REPRESENTATIVES, ADMINISTRATORS = "representatives", "administrators"
ACTS = (
    Act(
        "transfer", "transfer", "FROM TO KIND AMOUNT", "FROM, TO", REPRESENTATIVES,
        "transfer of {3} {2}, {0} to {1}",
        (("a holder kind, open", "a holder kind, not closed", "TRUSTED if FROM trusts TO on D, else OTHER"),),
    ),
    Act(
        "return", "return of excess", "FROM TO KIND AMOUNT", "FROM, TO", REPRESENTATIVES,
        "return of {3} {2}, {0} to {1}", (("an operator kind, not closed", "allocation, not closed", "0"),),
    ),
    Act(
        "surrender", "surrender", "FROM KIND AMOUNT", "FROM", REPRESENTATIVES,
        "surrender of {2} {1} from {0}", (("an operator kind, not closed", "", "0"),),
    ),
    Act(
        "delete", "deletion", "FROM KIND AMOUNT", "FROM", REPRESENTATIVES,
        "deletion of {2} {1} from {0}", (("a holder kind, open", "", "0"),),
    ),
    Act(
        "reverse", "reversal", "ACCOUNT NUMBER", "ACCOUNT", ADMINISTRATORS,
        "reversal of record {1} on {0}", (("a holder kind, not closed", "", "0"),),
    ),
    Act(
        "create", "creation", "TO KIND AMOUNT", "TO", ADMINISTRATORS,
        "creation of {2} {1} on {0}", (("", "total, not closed", "0"),),
    ),
    Act(
        "central", "central move", "FROM TO KIND AMOUNT", "FROM, TO", ADMINISTRATORS,
        "central move of {3} {2}, {0} to {1}", (
            ("total, not closed", "allocation, not closed", "0"),
            ("allocation, not closed", "total or an operator kind, not closed", "0"),
        ),
    ),
    Act(
        "distribute", "distribution", "FROM KIND TO AMOUNT", "FROM, and each TO in the same order", ADMINISTRATORS,
        "", (("allocation, not closed", "one to eight accounts of an operator kind, none closed", "0"),),
    ),
    Act(
        "trust", "addition to a trusted list", "ACCOUNT OTHER", "ACCOUNT", REPRESENTATIVES,
        "addition of {1} to the list of {0}", (("a holder kind, not closed", "", "0"),),
    ),
    Act(
        "untrust", "removal from a trusted list", "ACCOUNT OTHER", "ACCOUNT", REPRESENTATIVES,
        "removal of {1} from the list of {0}", (("a holder kind, not closed", "", "0"),),
    ),
    Act(
        "status", "change of a status", "ACCOUNT STATUS", "ACCOUNT", ADMINISTRATORS,
        "status of {0} to {1}", (("a holder kind, not closed", "", "0"),),
    ),
    Act(
        "emissions", "entry of emissions", "ACCOUNT YEAR TONNES", "ACCOUNT", ADMINISTRATORS,
        "emissions of {0} in {1}: {2} tonnes", (("an operator kind, not closed", "", "0"),),
    ),
    Act(
        "assess", "assessment", "ACCOUNT YEAR", "ACCOUNT", ADMINISTRATORS,
        "assessment of {0} for {1}", (("an operator kind, open or blocked", "", "0"),),
    ),
)  # fmt: skip
# The act whose last two fields repeat.
DISTRIBUTE = "distribute"


class Check(NamedTuple):
    """A check: its name, the acts that it can refuse, when it fails, what to do then, and whether it finds something of
    the first account alone, and of no other account, user or list. Its code is its place."""

    name: str
    acts: str
    meaning: str
    advice: str
    of_itself: bool = False


ALL = " ".join(act.word for act in ACTS)
# The checks in which they are asked, from the code 1 on.
CHECKS = (
    Check("UnknownAccount", ALL,
          "There is no account with the number that stands as FROM, TO or ACCOUNT. An addition to a trusted list: "
          "also if there is no account OTHER.",
          "Check the account numbers."),
    Check("SameAccount", "transfer return central distribute trust",
          "FROM and TO are the same account. A distribution: also if two receivers are. An addition: ACCOUNT and "
          "OTHER are.",
          "Name different accounts."),
    Check("WrongAccountKind", ALL,
          "An account is not of a kind that the [table of acts](#the-acts) names for this act.",
          "Use accounts of these kinds."),
    Check("SourceStatus", "transfer surrender delete return reverse central distribute trust untrust status emissions "
          "assess",
          "FROM does not have a status that the [table of acts](#the-acts) names. A transfer or a deletion: it is not "
          "open. An assessment: it is excluded or closed. Any other act: it is closed.",
          "Use another account, or ask an administrator to change the status of FROM. A closed account stays closed.",
          of_itself=True),
    Check("DestinationStatus", "transfer return create central distribute",
          "TO is closed. A distribution: one of the receivers is.",
          "Use another account."),
    Check("NotProposer", ALL,
          "The proposer may not propose for this account. For an act of administrators: the proposer is no "
          "administrator.",
          "Let a representative with this right propose it. An act of administrators: let a user propose it who "
          "stands in an `admin` row of the day. See [below](#users-who-may-not-do-it)."),
    Check("ApprovalMissing", ALL,
          "There is no approver. Only a transfer from an account with the waiver, to an account that it trusts on the "
          "settlement day, needs none.",
          "Enter it again with an approver: a second representative. An act of administrators: a second "
          "administrator."),
    Check("SameRepresentative", ALL,
          "The approver is also the proposer.",
          "Let another representative approve it. An act of administrators: let another administrator."),
    Check("NotApprover", ALL,
          "The approver may not approve for this account. For an act of administrators: the approver is no "
          "administrator.",
          "Let a representative with this right approve it. An act of administrators: let a user approve it who "
          "stands in an `admin` row of the day. See [below](#users-who-may-not-do-it)."),
    Check("NotTrusted", "transfer",
          "A transfer: FROM does not trust TO on the settlement day, and does not allow transfers outside its list.",
          "Put TO on the trusted list of FROM, and wait until the entry takes effect."),
    Check("OutsideCalendar", ALL,
          "The instruction has no due day. An addition: also if there is no day on which it would take effect.",
          "Put more working days into the calendar, by `work` rows, and enter the instruction again.", of_itself=True),
    Check("NotDue", ALL,
          "The due day is later than the settlement day.",
          "`./day next` and `./day close` enter the same row again on its due day, with [its old date of "
          "proposal](FORMATS.md#refused-instructions). Without them, enter the row so by hand."),
    Check("KindNotAllowed", "surrender",
          "A surrender: the surrender table does not allow this kind of allowance for this kind of account.",
          "Surrender allowances of an allowed kind.", of_itself=True),
    Check("ZeroAmount", "transfer surrender delete return create central distribute",
          "The amount is 0. A distribution: one of the amounts is. The tonnes of an entry of emissions may be 0.",
          "Give an amount of at least 1.", of_itself=True),
    Check("UnknownTransaction", "reverse",
          "A reversal: the account has no surrender or deletion with this record number.",
          "Check the account and the record number.", of_itself=True),
    Check("AlreadyReversed", "reverse",
          "A reversal: this surrender or deletion was reversed before.",
          "Nothing is left to do. If you meant another one, check the record number.", of_itself=True),
    Check("WindowClosed", "reverse",
          "A reversal: the reversal window ended before the settlement day.",
          "It cannot be reversed any more.", of_itself=True),
    Check("NotEnough", "transfer surrender delete return central distribute",
          "FROM holds less than the amount. A distribution: less than the sum of the amounts.",
          "Lower the amount, or let FROM receive allowances first.", of_itself=True),
    Check("HoldingTooLarge", "transfer return reverse create central distribute",
          "An account that receives would hold more than 10^15 allowances of the kind: a TO, or the ACCOUNT of a "
          "reversal.",
          "Lower the amount, or use another account. Before a reversal, let the account transfer allowances."),
    Check("RetiredTooLarge", "surrender delete",
          "A surrender: the account would have surrendered more than 10^15 allowances of the kind. A deletion: it "
          "would have deleted more than this.",
          "Lower the amount.", of_itself=True),
    Check("RowsFull", "surrender delete",
          "A surrender or deletion: the account already has 4,096 surrenders and deletions. Reversed ones count.",
          "Use another account.", of_itself=True),
    Check("WouldBecomeNonCompliant", "reverse",
          "A reversal of a surrender: the figure of the latest determined year of the period of this surrender is 0 "
          "or more and would be below 0.",
          "Surrender enough allowances first. They count only if the period of this surrender is the current one: "
          "see [below](#periods-and-years).", of_itself=True),
    Check("AlreadyTrusted", "trust",
          "An addition: OTHER is on the trusted list already, whether its entry is in effect or not.",
          "Nothing. If the entry is not in effect yet, wait until it is."),
    Check("NotOnList", "untrust",
          "A removal: OTHER is not on the trusted list.",
          "Check the account number."),
    Check("ListFull", "trust",
          "An addition: the trusted list already has 256 entries.",
          "Remove an entry first."),
    Check("YearOutsidePeriod", "emissions assess",
          "An entry of emissions or an assessment: the year is in no period.",
          "Check the year, and the `period` rows of the day: see [below](#periods-and-years).", of_itself=True),
    Check("AmountTooLarge", "emissions",
          "An entry of emissions: the emissions are above 10^12 tonnes.",
          "Check the number of tonnes.", of_itself=True),
    Check("EmissionsMissing", "assess",
          "An assessment: the emissions of this year, or of an earlier year of its period, are missing.",
          "Enter the emissions of every year from the first year of its period up to this one. A year in which "
          "nothing was emitted takes an entry of 0 tonnes. Years of earlier periods need no entry.", of_itself=True),
)  # fmt: skip
# These two ask the representatives, or the administrators, as the act says.
ASK_USERS = ("NotProposer", "NotApprover")


class ByHand(NamedTuple):
    """What of fields of the `account` row, or of the rows of a list, may be changed by hand, and the acts that do the
    rest."""

    tag: str
    fields: str
    by_hand: tuple[str, ...]
    acts: str


ADD, CHANGE, LEAVE_OUT = "add", "change", "leave out"
BY_HAND = (
    ByHand("account", "HOLDER OUTSIDE WAIVER CORRECTION", (CHANGE,), ""),
    ByHand("account", "NO KIND", (), ""),
    ByHand("account", "STATUS", (), "status"),
    ByHand("account", "GENERAL AVIATION", (), "transfer return surrender delete reverse create central distribute"),
    ByHand("correction", "", (ADD, CHANGE, LEAVE_OUT), ""),
    ByHand("user", "", (ADD, CHANGE, LEAVE_OUT), ""),
    ByHand("trusted", "", (), "trust untrust"),
    ByHand("retired", "", (), "surrender delete reverse"),
    ByHand("emissions", "", (LEAVE_OUT,), "emissions"),
    ByHand("figure", "", (LEAVE_OUT,), "assess"),
)


class Columns(NamedTuple):
    """The columns that a command writes for programs, and those of them that have numbers."""

    names: tuple[str, ...]
    numbers: frozenset[str]


def columns(words: str) -> Columns:
    """The columns of these words; # stands before one with numbers."""
    names = tuple(word.removeprefix("#") for word in words.split())
    return Columns(names, frozenset(word[1:] for word in words.split() if word.startswith("#")))


COLUMNS = {
    "find": columns("date #record proposed #proposer #approver act #from #to kind #amount #year outcome status"),
    "due": columns("date what #account #record text"),
    "balance": columns("after #account kind #held #surrendered #deleted"),
    "diff": columns("what #account field first second"),
    "history": columns("date #record what outcome #general #aviation"),
    "changes": columns("day at who approved why change"),
    "label": columns("kind #number name at who why"),
    "log": columns(
        "#record date proposed #proposer #approver act #from #to kind #amount #year outcome #code name #figure due "
        "advice status #record_named"
    ),
    "compliance": columns(
        "#account kind #holder status #year #surrendered #emissions #correction #determined #figure verdict #missing"
    ),
    "reconcile": columns("what #account field file day"),
    "verify": columns("day report #instructions #accounts is_so file #line field found expected"),
    "audit": columns("file #line field found expected"),
    "status": columns("what date #record #place who at text"),
}


def power(number: int) -> str:
    """A large round number as documents write it."""
    digits = str(number).rstrip("0")
    zeros = len(str(number)) - len(digits)
    return f"10^{zeros}" if digits == "1" else f"{digits} x 10^{zeros}"


# The limits as docs/RULES.md tells them.
LIMITS = (
    ("instructions of a day", f"{MOST_INSTRUCTIONS:,}"),
    ("accounts", f"{MOST_ACCOUNTS:,}"),
    ("representatives of an account", f"{MOST_REPRESENTATIVES}"),
    ("entries of a trusted list", f"{MOST_TRUSTED}"),
    ("surrenders and deletions of an account, together with reversed ones", f"{MOST_ROWS:,}"),
    ("what an account holds of each kind", f"0 to {power(MOST_HELD)}"),
    ("what an account has surrendered of each kind, for all periods together; what it has deleted of each kind",
     f"0 to {power(MOST_RETIRED)}"),
    ("the amount of one surrender or deletion", f"1 to {power(MOST_RETIRED)}"),
    ("emissions of a year", f"0 to {power(MOST_TONNES)} tonnes"),
    ("compliance periods of a day", f"1 to {MOST_PERIODS}"),
    ("correction factor of each period", f"-{power(MOST_CORRECTION)} to {power(MOST_CORRECTION)}"),
    ("a determined figure in the day text", f"-{power(MOST_FIGURE)} to {power(MOST_FIGURE)}"),
    ("record numbers", f"1 to {power(MOST_RECORD)}"),
    ("account, user and holder numbers", f"1 to {MOST_NUMBER:,}"),
    ("years", f"{FIRST_YEAR} to {LAST_YEAR}"),
    ("days", f"{FIRST_YEAR}-01-01 to {LAST_YEAR}-12-31"),
    ("lags and reversal window", f"0 to {MOST_LAG:,} working days"),
    ("administrators of a day", f"0 to {MOST_ADMINISTRATORS}"),
    ("receivers of a distribution", f"1 to {MOST_SHARES}"),
    ("amount or tonnes of an instruction", f"0 to {MOST_U64:,}"),
    ("workers", f"1 to {MOST_WORKERS}"),
    ("input of the program", "2^30 bytes"),
)  # fmt: skip
