"""The commands by the name under which installations and scripts start them: they are carried out in the room `cli`. A
desk is served in the room `desk`, which uses that one."""
from registry_tools.cli import serving
from registry_tools.cli.main import (
    COMMANDS as COMMANDS, FOR_DESK as FOR_DESK, OFFICE_COMMANDS as OFFICE_COMMANDS, begin as begin, main as main,
    module_of as module_of, parser_of as parser_of, start as start,
)  # fmt: skip


def serve(asked: serving.AtPort | serving.AtSocket) -> int:
    """Serves a folder at a desk, and answers the exit status."""
    # (other commands need nothing of it)
    from registry_tools.desk import desk

    return desk.begin(asked)


serving.serve = serve
