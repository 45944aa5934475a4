# Proves and builds the program. ./run and ./check read this file after common.sh.
#
# The program that ./run starts is a copy, out/registry at the top of the repository. It is put
# there in one step, and only after it was proved, built and tried, so that it is whole whatever is
# interrupted. Beside it stands from which source it was built, and with which kit.

built=$top/crates/registry/out/registry
program=$top/out/registry
built_from=$program.source
build_logs=$top/out/proofs
library=$top/out/library

# About how long the first proof takes on four cores, fast ones and slow ones.
minutes_to_build='15 to 45'

# Prints the files and folders that the program is made of, one a line.
parts_of_program() {
  local crate part
  echo "$top/crates.txt"
  for crate in $("$top/tools/crates" below registry </dev/null); do
    for part in src specs proofs; do
      [ ! -d "$top/crates/$crate/$part" ] || echo "$top/crates/$crate/$part"
    done
  done
}

# Prints one of them that is newer than the file $1, if there is one: folders count too, so that a removed file
# is noticed.
newer_source() {
  local parts
  mapfile -t parts < <(parts_of_program)
  find "${parts[@]}" -newer "$1" -print -quit
}

# The lines of a note of a build for these files: the SHA-256 of each, and its name.
sums_for_note() {
  local file sum
  for file in "$@"; do
    sum=$(sha256sum <"$file") || return
    echo "sha256: ${sum%% *} ${file##*/}"
  done
}

# Says why nothing proves the file $1, by the note of its build, $2. Says nothing if the note says that it was proved, and has
# the SHA-256 of its bytes. python/registry_tools/proof.py tells the same.
doubt_of() {
  local sum name=${1#"$top"/} note=${2#"$top"/}
  ! tail -c 512 -- "$1" | grep -aqF 'NOT PROVED' || {
    echo "$name says in its last lines that it is NOT PROVED"
    return
  }
  grep -qs '^proved and built with ' -- "$2" && ! grep -qi 'not proved' -- "$2" || {
    echo "nothing says that $name is proved"
    return
  }
  grep -q '^sha256: ' -- "$2" || {
    echo "$note has no SHA-256 of $name: an older version wrote it"
    return
  }
  sum=$(sha256sum <"$1") || return
  grep -qx "sha256: ${sum%% *} [^ ]*" -- "$2" ||
    echo "$name is not the file that was proved: its SHA-256 begins ${sum:0:12}, which $note does not have"
}

# Says why the program has to be built. Says nothing if it is there, newer than all that it is made of, and the file that was
# proved.
reason_to_build() {
  local newer
  [ -x "$program" ] || {
    echo "there is no program yet"
    return
  }
  newer=$(newer_source "$program")
  [ -z "$newer" ] || {
    echo "${newer#"$top"/} is newer than the program"
    return
  }
  doubt_of "$program" "$built_from"
}

# Says which commit the sources of the program are, and whether they were changed since. Without git, the file COMMIT of an
# archive that git has made tells the commit, and nobody whether they were changed.
source_of() {
  local commit archived
  if ! commit=$(git -C "$top" rev-parse --short=12 HEAD 2>&1); then
    read -r archived 2>/dev/null <"$top/COMMIT" || archived=
    if [[ $archived =~ ^[0-9a-f]{40}$ ]]; then
      echo "source: an archive of commit ${archived:0:12}"
    elif ! command -v git >/dev/null; then
      echo "source: not known, since git is not here"
    elif [[ $commit == *'dubious ownership'* ]]; then
      echo "source: not known, since git takes nothing of another owner: git config --global --add safe.directory $top"
    else
      echo "source: no commit of git"
    fi
    return
  fi
  if [ -z "$(git -C "$top" status --porcelain -- crates crates.txt 2>/dev/null)" ]; then
    echo "source: commit $commit"
  else
    echo "source: commit $commit, with changes"
  fi
}

# Puts a copy of the program that `rt` has built into its place. The copy gets the time of the file
# $1, which was made before the build: a file that was changed during the build is newer, and the
# program is built again the next time. $2 says from which source it was built.
keep_program() {
  local copy=$program.$$ status=0
  mkdir -p -- "$top/out"
  rm -f -- "$built_from"
  cp -- "$built" "$copy" && "$copy" settle <"$top/examples/first-transfer.csv" >/dev/null &&
    touch -r "$1" -- "$copy" && mv -f -- "$copy" "$program" || status=1
  rm -f -- "$copy"
  [ "$status" != 0 ] ||
    printf '%s\nproved and built with %s\n%s\n' "$2" "$(rt version)" "$(sums_for_note "$program")" >"$built_from"
  return "$status"
}

# Says why the library for other languages has to be built. Says nothing if it is there, and newer than all that it is made of.
reason_to_build_library() {
  local made=$library/lib/libregistry.a note=$library/lib/registry.source parts=("$top/crates.txt" "$top/include" "$top/tools/library") crate part newer
  [ -e "$made" ] || {
    echo "there is no library"
    return
  }
  for crate in $("$top/tools/crates" below registry_c </dev/null); do
    for part in src specs proofs; do
      [ ! -d "$top/crates/$crate/$part" ] || parts+=("$top/crates/$crate/$part")
    done
  done
  newer=$(find "${parts[@]}" -newer "$made" -print -quit)
  [ -z "$newer" ] || {
    echo "${newer#"$top"/} is newer than the library"
    return
  }
  for part in "$made" "$library/lib/libregistry.so"; do
    [ -z "$(doubt_of "$part" "$note")" ] || {
      doubt_of "$part" "$note"
      return
    }
  done
}

# Builds the library beside the program, unless that was done and nothing has changed. The program stands without it.
build_library() {
  [ -n "$(reason_to_build_library)" ] || return 0
  run_child env -C "$top/crates/registry_c" rt lib >"$build_logs/registry_c.log" 2>&1 </dev/null &&
    run_child "$top/tools/library" --from "$top/crates/registry_c/out/libregistry_c.a" </dev/null
}

# Proves all that the program uses, and builds it.
build_program() {
  local status=0 begun=$top/out/begun.$$ source
  mkdir -p -- "$build_logs"
  : >"$begun"
  source=$(source_of)
  run_child "$top/tools/prove" registry "$build_logs" <"$top/examples/first-transfer.csv" || status=$?
  [ "$status" != 0 ] || keep_program "$begun" "$source" >>"$build_logs/registry.log" 2>&1 || status=1
  rm -f -- "$begun"
  return "$status"
}

# Shows the end of what rt said last in a build that failed, and where it lies.
show_build_log() {
  local log
  log=$(ls -t -- "$build_logs"/*.log 2>/dev/null | head -n 1)
  [ -n "$log" ] || return 0
  echo "The last lines of ${log#"$top"/}, which has all that rt said:"
  tail -n 20 -- "$log"
}

# Removes what an interrupted build left.
forget_build() {
  rm -f -- "$top/out/begun.$$" "$program.$$"
}
