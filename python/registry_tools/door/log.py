"""What a desk logs, on standard error, so that the journal of a service has it: who came in, what was begun, and what
was refused and why. No key, cookie, token or secret stands in it, and no words of an address behind its path."""
import logging
import sys

from registry_tools.errors import shown, visible

FORM, TIMES = "%(asctime)s desk: %(message)s", "%Y-%m-%dT%H:%M:%S%z"
LONGEST = 80
logger = logging.getLogger("registry.desk")
# (a desk that is asked by trials in their own process logs nothing)
logger.addHandler(logging.NullHandler())


def begin() -> None:
    """Has the log go to standard error."""
    handler = logging.StreamHandler(sys.stderr)
    handler.setFormatter(logging.Formatter(FORM, TIMES))
    # (what waitress has to say stands in the same log, without how many requests wait for a thread)
    for log in (logger, logging.getLogger("waitress")):
        log.addHandler(handler)
        log.propagate = False
    logger.setLevel(logging.INFO)
    logging.getLogger("waitress.queue").setLevel(logging.ERROR)


def plain(words: str) -> str:
    """Words of somebody else, in one line of letters that everybody sees."""
    return "".join(map(visible, words[:LONGEST]))


def came_in(peer: str, who: str) -> None:
    """A browser came in."""
    logger.info("came in from %s%s", plain(peer), f" as {plain(who)}" if who else "")


def begun(command: str, who: str, peer: str) -> None:
    """Somebody had a command begun."""
    logger.info("%s began ./day %s, from %s", plain(who) or "somebody", plain(command), plain(peer))


def told(what: str) -> None:
    """Something else that was done."""
    logger.info("%s", plain(what))


def refused(peer: str, method: str, path: str, code: int, why: str) -> None:
    """A request was refused."""
    logger.warning("refused %s: %s %s from %s: %s", code, plain(method), shown(path[:LONGEST]), plain(peer), plain(why))
