"""Stand-ins for the program and the library, for trials of what is made of them: both answer by the second answer."""
import hashlib
import shutil
import subprocess
from pathlib import Path

from harness import TOOLS, TOP

RULES = TOOLS / "rules.py"
VERSION = (TOP / "VERSION").read_text().strip()
PROGRAM = f"""#!/usr/bin/env bash
case $1 in
--version) echo "registry {VERSION}" ;;
--help) printf 'Settles one day\\n.x\\n--version\\n' ;;
*) exec python3 -B {RULES} "$@" ;;
esac
"""
NOTE = f"registry {VERSION}\n"
PROVED = "source: commit 0123456789ab\nproved and built with rattle-kit-of-this-case\n"
# Each call has the second answer read the day from a file.
LIBRARY = f"""
#include "registry.h"
#include <stdio.h>
#include <stdlib.h>
#include <string.h>
#include <unistd.h>

static struct registry_answer answer(const char *words, const char *day, size_t length, char *room, size_t most) {{
  struct registry_answer made = {{REGISTRY_NO_MEMORY, 0, 0, 0}};
  char name[] = "/tmp/standin-XXXXXX", line[4096], *text = malloc(1 << 24);
  int file = mkstemp(name);
  size_t there;
  FILE *out;
  if (!text || file < 0 || write(file, day, length) != (ssize_t)length) return made;
  snprintf(line, sizeof line, "python3 -B {RULES} <%s %s", name, words);
  out = popen(line, "r");
  there = fread(text, 1, 1 << 24, out);
  made.status = pclose(out) == 0 ? REGISTRY_DONE : REGISTRY_FAULT;
  if (made.status == REGISTRY_FAULT) made.cause = REGISTRY_TAG, made.row = 1;
  if (made.status == REGISTRY_DONE) made.length = there;
  if (made.length <= most && made.length) memcpy(room, text, made.length);
  close(file);
  unlink(name);
  free(text);
  return made;
}}

#define CALL(name, words)                                                                                    \\
  struct registry_answer registry_##name(const char *day, size_t length, char *room, size_t most) {{           \\
    return answer(words, day, length, room, most);                                                             \\
  }}
CALL(settle, "settle")
CALL(try, "settle | grep ^log,")
CALL(plan, "plan")
CALL(figures, "figures")
CALL(totals, "totals")
/* (no trial asks these) */
CALL(statements, "settle")

struct registry_answer registry_next(
    const char *day, size_t length, const char *date, size_t date_length, char *room, size_t most) {{
  (void)date, (void)date_length;
  return answer("settle", day, length, room, most);
}}

struct registry_answer registry_statement(const char *day, size_t length, uint32_t account, char *room, size_t most) {{
  char words[64];
  snprintf(words, sizeof words, "statement %u", account);
  return answer(words, day, length, room, most);
}}

size_t registry_report_most(size_t length) {{ return length > SIZE_MAX / 8 ? SIZE_MAX : 8 * length; }}

uint32_t registry_version(void) {{ return REGISTRY_VERSION; }}

static struct registry_answer told(const char *text, char *room, size_t most) {{
  struct registry_answer made = {{REGISTRY_DONE, 0, 0, strlen(text)}};
  if (made.length <= most && made.length) memcpy(room, text, made.length);
  return made;
}}
struct registry_answer registry_version_string(char *room, size_t most) {{
  return told(REGISTRY_VERSION_STRING, room, most);
}}
#define WORD(name)                                                                                             \
  struct registry_answer registry_##name(uint32_t number, char *room, size_t most) {{                         \
    (void)number;                                                                                              \
    return told("word", room, most);                                                                           \
  }}
WORD(cause_word)
WORD(refusal_word)
WORD(refusal_sentence)
WORD(field_name)

struct registry_answer registry_fault_sentence(uint32_t cause, uint32_t column, char *room, size_t most) {{
  (void)cause, (void)column;
  return told("A sentence.", room, most);
}}

struct registry_place registry_find_fault(const char *day, size_t length) {{
  struct registry_answer made = registry_settle(day, length, NULL, 0);
  struct registry_place at = {{made.status, made.cause, made.row, 0, 0}};
  return at;
}}
"""


def sums_of(*paths: Path) -> str:
    """The lines of a note with the sums of what was built."""
    return "".join(f"sha256: {hashlib.sha256(path.read_bytes()).hexdigest()} {path.name}\n" for path in paths)


def build_library(folder: Path) -> bool:
    """Makes what `tools/library` makes in a folder, of the stand-in. Answers whether a C compiler is there."""
    lib, include = folder / "lib", folder / "include"
    for path in (lib / "pkgconfig", include):
        path.mkdir(parents=True, exist_ok=True)
    shutil.copy(TOP / "include/registry.h", include)
    (lib / "pkgconfig/registry.pc").write_text(
        "prefix=${pcfiledir}/../..\nName: registry\nDescription: The settlement engine\n"
        f"Version: {VERSION}\nCflags: -I${{prefix}}/include\nLibs: -L${{prefix}}/lib -lregistry\n"
    )
    for name in ("libregistry.a", "libregistry.so.1"):
        (lib / name).write_text("library")
    (lib / "libregistry.so").symlink_to("libregistry.so.1")
    has_compiler = shutil.which("cc") is not None
    if has_compiler:
        compile_library(folder)
    sums = sums_of(lib / "libregistry.a", lib / "libregistry.so.1")
    (lib / "registry.source").write_text(NOTE + PROVED + sums)
    return has_compiler


def compile_library(folder: Path) -> None:
    """Builds the stand-in for the library, static and shared."""
    lib, include = folder / "lib", folder / "include"
    source = folder / "standin.c"
    source.write_text(LIBRARY)
    words: list[str | Path] = ["cc", "-fPIC", "-O1", f"-I{include}"]
    objects = folder / "standin.o"
    subprocess.run([*words, "-c", "-o", objects, source], check=True)
    soname = "-Wl,-soname,libregistry.so.1"
    subprocess.run(["cc", "-shared", soname, "-o", lib / "libregistry.so.1", objects], check=True)
    (lib / "libregistry.a").unlink()
    subprocess.run(["ar", "rcsD", lib / "libregistry.a", objects], check=True)
    source.unlink()
    objects.unlink()
