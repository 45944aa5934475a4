# What ./run and ./check share. They read this file, with `top` set to the top of the repository.

# The command that runs now, if any. Its own output may go to a file, so that the word on an
# interruption goes to the descriptor 3.
child=

# Runs a command, which is no function of the shell, and waits for it. A signal is answered at
# once: for a command in the foreground, bash would first wait for its end.
run_child() {
  local status=0
  "$@" <&0 3>&- &
  child=$!
  wait "$child" || status=$?
  child=
  return "$status"
}

# Ends the command that runs now. When `rt` ends, all that it has started ends too.
stop_child() {
  [ -n "$child" ] || return 0
  kill -- "$child" 2>/dev/null || true
  wait "$child" 2>/dev/null || true
}

# A number of seconds, in minutes and seconds.
time_of() {
  if [ "$1" -lt 60 ]; then echo "$1 s"; else echo "$(($1 / 60)) min $(($1 % 60)) s"; fi
}

# How many checks may run side by side, or how many jobs a proof may have: one a processor, each
# with so many GB of free memory ($1), and at least one.
most_at_once() {
  local by_memory most
  by_memory=$(awk -v each="$1" '/^MemAvailable:/ { print int($2 / 1000000 / each) }' /proc/meminfo)
  most=$(nproc)
  [ "$most" -le "$by_memory" ] || most=$by_memory
  [ "$most" -ge 1 ] || most=1
  echo "$most"
}

# Fails if `rt` is missing, and says so.
need_rt() {
  command -v rt >/dev/null && return
  echo "The command rt is not on the PATH. It proves and builds the program: install the Rattle kit"
  echo "that README.md names, or put the folder of its rt on the PATH. Without it, ./demo shows what Python"
  echo "alone can do, and tools/rules.py settle < DAY gives the second answer."
  return 1
}
