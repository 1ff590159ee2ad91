# Proving: rt's own lines, as they come, become one line of progress for each crate.

# crates_below NAME: the crates of the repository that are proved for NAME, itself included, in the order in which rt takes them.
crates_below() {
  awk -v name="$1" '
    { sub(/#.*/, ""); at = index($0, ":") }
    at { split(substr($0, 1, at - 1), crate, " "); below[crate[1]] = substr($0, at + 1) }
    function visit(crate,    i, n, list) {
      if (crate in seen || !(crate in below)) return
      seen[crate] = 1
      n = split(below[crate], list, " ")
      for (i = 1; i <= n; i++) visit(list[i])
      print crate
    }
    END { visit(name) }' "$here/crates.txt"
}

# place_of CRATE NAME...: at which place of the names the crate stands.
place_of() {
  wanted=$1 place=0
  shift
  for name; do
    place=$((place + 1))
    [ "$name" != "$wanted" ] || break
  done
  echo $place
}

# show_progress NAME...: shows the lines of rt, which takes these crates in turn. It names a crate that it begins to check, and says
# nothing of one that has not changed. A crate that is proved gives one line; all others stand as rt has them where it fails.
show_progress() {
  kept='' status=2 checked='' began=0
  while IFS= read -r line; do
    case $line in
      'rt: chose --jobs '*' for '*)
        checked=${line##* for } began=$(date +%s)
        echo "$checked" >"$here/target/$part.checking"
        ;;
      'logic=proved'*)
        [ -z "$checked" ] ||
          printf 'tarravane: proving %s of %s: %s proved (%s s)\n' "$(place_of "$checked" "$@")" $# "$checked" $(($(date +%s) - began)) >&2
        kept='' checked=''
        : >"$here/target/$part.checking"
        ;;
      'rt: '*'waiting for '*) printf 'tarravane: %s\n' "${line#rt: }" >&2 ;;
      'ended: '*) status=${line#ended: } ;;
      *) kept="$kept$line
" ;;
    esac
  done
  [ "$status" -eq 0 ] || printf '%s' "$kept" >&2
  return "$status"
}

# Says every few seconds what is being checked and for how long, while the launcher lives.
show_running() {
  known='' took=0 due=5
  while sleep 1 >/dev/null 2>&1 && kill -0 $$ 2>/dev/null; do
    name=''
    { read -r name <"$here/target/$part.checking"; } 2>/dev/null
    [ "$name" = "$known" ] || { known=$name took=0 due=5; }
    took=$((took + 1))
    [ -n "$name" ] && [ "$took" -ge "$due" ] || continue
    due=$((took + 5))
    printf 'tarravane: checking %s for %s s\n' "$name" "$took" >&2
  done
}

# prove VERB NAME WHAT: runs rt VERB in the crate's folder. `rt run` runs the program at the end: on N alone, of which it prints nothing.
prove() {
  # shellcheck disable=SC2046 # words on purpose
  set -- "$@" $(crates_below "$2")
  verb=$1 crate=$2 what=$3
  shift 3
  announce "proving and building $what, once: $# crates, a few minutes"
  : >"$here/target/$part.checking"
  show_running 9<&- &
  clock=$!
  { (cd "$here/crates/$crate" && printf '\100' | rt "$verb") 2>&1; echo "ended: $?"; } | show_progress "$@"
  status=$?
  kill "$clock" 2>/dev/null
  wait "$clock" 2>/dev/null
  rm -f "$here/target/$part.checking"
  [ "$status" -eq 0 ] || fail "$what was not built"
}
