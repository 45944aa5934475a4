"""Notes beside each library that `rt ci` built in a folder from which sources it was built.

usage: note-libraries [FOLDER]

`rt ci` proves and builds the libraries of the folder, and leaves no note. Without one `rt lib` would prove them all
again before it builds a library above them. The sources must be those that `rt ci` has just passed.
"""
import os
import sys

sys.path.append(os.environ["RTLIB"])
import rtlib

USAGE = str(__doc__).split("\n\n")[1]


def main() -> int:
    if len(sys.argv) > 2 or sys.argv[1:2] in (["-h"], ["--help"]):
        print(USAGE, file=sys.stderr)
        return 2
    for crate in rtlib.crates_below(os.path.abspath(sys.argv[1] if len(sys.argv) == 2 else ".")):
        note = f"{crate.folder}/out/rlib/stamp"
        if os.path.isdir(f"{crate.folder}/out/rlib/{crate.name}.rlib") and not os.path.exists(note):
            with open(note, "w", encoding="ascii") as stream:
                stream.write(crate.stamp())
    return 0


if __name__ == "__main__":
    sys.exit(main())
