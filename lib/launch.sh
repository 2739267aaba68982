# shellcheck shell=sh disable=SC2154,SC2185
# The part that the launchers share. They set `root` to the folder in which they are.
#   launch PROGRAM [WORD..]
# runs crates/PROGRAM/out/PROGRAM with these words. Input, output and status are the program's own.
# If the program isn't built, or something from which it was built has changed, lib/launch.py proves
# and builds it first.

# Whether nothing has changed since the program was built. lib/launch.py lists its sources, their
# folders and the files of the kit. A file that is gone fails the search. A file that is put back with
# its old time has a new time of change, and so has a folder that gains or loses a file.
is_new() {
  [ -x "$root/crates/$1/out/$1" ] || return
  changed=$(CDPATH="" cd "$root" && find -files0-from "crates/$1/out/$1.sources" -maxdepth 0 -cnewer "crates/$1/out/$1" -print -quit 2>/dev/null) && [ -z "$changed" ]
}

launch() {
  is_new "$1" || exec python3 "$root/lib/launch.py" "$@"
  program=$root/crates/$1/out/$1
  shift
  exec "$program" "$@"
}
