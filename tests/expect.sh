# shellcheck shell=bash disable=SC2034
# For the shell tests: comparisons that end the test where they fail, and are counted.
count=0

# expect NAME WANTED GOT
expect() {
  count=$((count + 1))
  if [ "$2" != "$3" ]; then
    printf '%s: %s: wanted\n%s\ngot\n%s\n' "$0" "$1" "$2" "$3" >&2
    exit 1
  fi
}

# ends STATUS LINES COMMAND...: the exit status, and how many lines come on standard error; they are left in $said.
# What has not ended after a minute has status 124.
ends() {
  local wanted=$1 lines=$2 status=0
  shift 2
  said=$(timeout 60 "$@" 2>&1 >/dev/null) || status=$?
  expect "$*: status (it said: $said)" "$wanted" "$status"
  expect "$*: lines on standard error" "$lines" "$(printf '%s' "$said" | grep -c '' || true)"
}

# says PATTERN: what the last command said on standard error matches.
says() {
  # shellcheck disable=SC2254 # a pattern on purpose
  case $said in
    $1) expect "says $1" yes yes ;;
    *) expect "says $1" "$1" "$said" ;;
  esac
}

# await COMMAND...: waits until it is true, a minute at most.
await() {
  local tries=0
  until "$@"; do
    [ $((tries += 1)) -le 1200 ] || expect "$*" true false
    sleep 0.05
  done
}

# The bytes of hex digits.
bytes() { printf '%b' "$(printf '%s' "$1" | sed 's/../\\x&/g')"; }

lines() { printf '%s\n' "$@"; }

# The two records of document 01: read 321, write 1023.
reads=541000000000000000000000000000008000000000000000
writes=bff000000000000000000000000000008000000000000000
