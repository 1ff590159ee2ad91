# The program has no exit status: how a replay ended is found out from the end of what it prints, from what it says on
# standard error, and from the signals that ended it or the copying of its words.

# Three processes in a row. Each says on descriptor 4 which it is and how it ended; the words go to descriptor 3, and a second time
# to 5. They run in the background, so that a signal to the launcher ends them. The shell's own word on a killed program is dropped.
run_program() {
  exec 7<&0
  { "$program" <&7 2>&4 3>&- 4>&- 5>&- 6<&- 7<&- & tell_process program; } 2>/dev/null
}
copy_words() {
  exec 7<&0
  { LC_ALL=C tee --output-error=exit /dev/fd/5 <&7 >&3 2>&4 6<&- 7<&- & tell_process copy; } 2>/dev/null
}
keep_end() { last=$(tail -n 1) && echo "end: $last" >&4; }

# tell_process NAME: of the last one in the background, its number and how it ends.
tell_process() {
  echo "process: $!" >&4
  wait $!
  echo "$1: $?" >&4
}

# is_text FILE: whether comments and blank lines, then `alerts` or `edition`, begin it, as explain and record tell a text. The first
# record of a trace, where it is well-formed, has bytes that are 0 and so is no such line.
is_text() {
  first=$(head -c 4096 <"$1" | LC_ALL=C tr '\0\t' '\1 ' | LC_ALL=C tr -d '\357\273\277' |
    LC_ALL=C sed -n 's/\r$//; /^ *\(#[^[:cntrl:]]*\)*$/d; /[[:cntrl:]]/q; s/^ *//p; q')
  case $first in alerts | alerts[\ \#]* | edition | edition[\ \#]*) ;; *) return 1 ;; esac
}

# is_plain FILE: whether its first bytes, enough for a record, are plain text, as explain tells one. Every well-formed record has
# bytes that are 0.
is_plain() {
  [ -n "$(head -c 25 <"$1" | tail -c +25 | LC_ALL=C tr '\0\n' xx)" ] || return 1
  [ -z "$(head -c 512 <"$1" | LC_ALL=C tr -d '\11\12\15\40-\176\200-\277\302-\364' | LC_ALL=C tr '\0' x)" ]
}

# check_trace FILE: ends where it is plainly no trace.
check_trace() {
  ! is_text "$1" || fail "$1: this is a text: ./tarravane record makes a trace of it"
  [ "$(head -c 4 <"$1" | LC_ALL=C tr -d '\0')" != TDMP ] || fail "$1: this is a dump: ./tarravane read shows it"
  ! is_plain "$1" || fail "$1: this is no trace: it is text, and every record has bytes that are 0"
}

# said NAME: what a process of that name has said.
said() { printf '%s\n' "$report" | sed -n "s/^$1: //p"; }

# killed STATUS: says so, and the end.
killed() {
  printf 'tarravane: replay was ended by signal %s; words may be missing\n' $(($1 - 128)) >&2
  exit "$1"
}

# check_killed STATUS
check_killed() { [ "${1:-0}" -le 128 ] || killed "$1"; }

# Gathers what the processes say, and ends as they did; a signal ends them.
judge() {
  report='' processes=''
  # shellcheck disable=SC2086 # words on purpose
  trap 'kill $processes 2>/dev/null; exit 143' TERM
  while IFS= read -r line; do
    case $line in
      'process: '*) processes="$processes ${line#process: }" ;;
      *) report="$report$line
" ;;
    esac
  done
  case $(said tee) in
    *'standard output'*': Broken pipe') exit 0 ;;
    ?*) fail "replay: write failed: $(said tee)" ;;
  esac
  check_killed "$(said copy)"
  check_killed "$(said program)"
  [ -z "$(said replay)" ] || fail "replay: $(said replay)"
  case "$(said program) $(said copy) $report" in
    '0 0 '*'end: '*) ;;
    *) fail "replay did not run to its end: $(printf '%s' "$report" | tr '\n' ' ')" ;;
  esac
  case $(said end) in
    cut) exit 1 ;;
    refused)
      echo 'tarravane: refused: a trace begins with N, 1 to 64, or with 253, 254 or 255 and then N, 1 to 248' >&2
      exit 1
      ;;
  esac
  exit 0
}

# stop SIGNAL: a signal to the launcher alone ends what it started.
stop() {
  trap '' HUP INT TERM
  kill -s TERM "$judging" 2>/dev/null
  wait "$judging" 2>/dev/null
  killed $((128 + $1))
}

# Replays standard input to standard output.
stream() {
  exec 3>&1 6<&0
  { { run_program | copy_words; } 5>&1 | keep_end; } 4>&1 <&6 | judge &
  judging=$!
  trap 'stop 1' HUP
  trap 'stop 2' INT
  trap 'stop 15' TERM
  wait $judging
  exit $?
}
