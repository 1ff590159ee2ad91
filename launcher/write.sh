# What a build writes. It is looked at before anything slow.

# written_for NAME: what the kit writes in proving the crate NAME: the folder out/ of each crate below it, and of itself.
written_for() { crates_below "$1" | sed 's|.*|crates/&/out|'; }

# unwritable PATH...: the first file or folder in these that cannot be written.
unwritable() {
  # shellcheck disable=SC2016 # for the inner shell
  find "$@" \( -type d -o -type f \) -exec sh -c '
    for path; do
      [ -w "$path" ] && { [ ! -d "$path" ] || { [ -r "$path" ] && [ -x "$path" ]; }; } && continue
      printf "%s\n" "$path"
      exit
    done' sh {} + 2>/dev/null | head -n 1
}

refuse_to_write() {
  # shellcheck disable=SC2012 # a name alone
  fail "the build cannot write $1 (its owner is $(ls -ld "$1" | awk '{ print $3 }')): build in a checkout of your own"
}

# check_writable PATH...: ends where one of these of the checkout could not be written, or made.
check_writable() {
  [ -e "$here/target" ] || [ -L "$here/target" ] || mkdir "$here/target" 2>/dev/null || refuse_to_write "$here"
  [ -d "$here/target" ] || fail "the build writes to $here/target, and that is no folder"
  [ -w "$here/target" ] && [ -x "$here/target" ] || refuse_to_write "$here/target"
  for path; do
    shift
    path=$here/$path
    above=${path%/*}
    if [ -e "$path" ]; then
      set -- "$@" "$path"
    else
      [ -w "$above" ] && [ -x "$above" ] || [ ! -e "$above" ] || refuse_to_write "$above"
    fi
  done
  [ $# -gt 0 ] || return 0
  first=$(unwritable "$@")
  [ -z "$first" ] || refuse_to_write "$first"
}

# One build at a time. The checkout's folder is locked: a file in target/ would go with it in a build from nothing. The lock
# ends with the last process that holds it, so none is left behind, and a prover that outlives its launcher is waited for.
lock() {
  exec 9<"$here"
  flock -n 9
  case $? in
    0) return ;;
    1) printf 'tarravane: waiting for another build in %s to end\n' "$here" >&2 ;;
    *) fail "cannot lock $here" ;;
  esac
  flock 9 || fail "cannot lock $here"
}

unlock() { exec 9<&-; }

# begun PART, ended PART: between the two its file is not taken for a whole one, also where the build was killed.
begun() { touch "$here/target/$1.unfinished" 2>/dev/null || fail "cannot write $here/target/$1.unfinished"; }
ended() { rm "$here/target/$1.unfinished" 2>/dev/null || fail "cannot remove $here/target/$1.unfinished"; }
is_unfinished() { [ -e "$here/target/$1.unfinished" ]; }

# finished PART FILE: it is as old as the beginning of its build, so that a source that was changed meanwhile is newer.
finished() {
  [ -f "$2" ] || fail "the build left no $2"
  touch -r "$here/target/$1.unfinished" "$2" 2>/dev/null || fail "cannot write $2"
}
