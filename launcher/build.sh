# What the commands run: the proved program, the proved library, and the tools that ask it. Each is built on first use and
# where a source is newer; what stands is run as it is, without rt or cargo, and nothing is written then.
program=$here/target/bin/replay
library=$here/target/staticlib/libtarravane.a
cli=$here/target/cargo/release/tarravane-cli
harness=$here/target/cargo/release/harness
plain=$here/target/cargo/release/reference-replay

# stands BUILT SOURCE...: whether BUILT is there and no file of the sources is newer. What the kit writes, the folder out/ of each
# crate, is no source.
stands() {
  built=$1
  shift
  [ -f "$built" ] && [ -z "$(find "$@" -type d -name out -prune -o -type f -newer "$built" -print | head -n 1)" ]
}

# rust_stands BUILT SOURCE...: the same of what cargo builds over the library.
rust_stands() {
  library_stands || return
  stands "$@" "$library" "$here/tools/handler" "$here/Cargo.toml" "$here/Cargo.lock"
}

program_stands() { stands "$program" "$here/crates" "$here/crates.txt" "$here/launcher/program"; }
library_stands() { stands "$library" "$here/crates" "$here/crates.txt" "$here/include" "$here/launcher/library"; }
tool_stands() { rust_stands "$cli" "$here/tools/tarravane" "$here/launcher/help"; }
harness_stands() { rust_stands "$harness" "$here/tools/harness" "$here/reference"; }
plain_stands() { stands "$plain" "$here/reference" "$here/Cargo.toml" "$here/Cargo.lock"; }

# need TOOL...: names all that are missing at once.
need() {
  missing=''
  for tool in "$@"; do
    command -v "$tool" >/dev/null 2>&1 && continue
    case $tool in
      rt) from='the Rattle kit' ;;
      cc) from='Debian package gcc' ;;
      flock) from='Debian package util-linux' ;;
      objcopy) from='Debian package binutils' ;;
      *) from="Debian package $tool" ;;
    esac
    case $missing in *"$tool ("*) ;; *) missing="$missing${missing:+, }$tool ($from)" ;; esac
  done
  [ -z "$missing" ] || fail "the build needs what is not on the path: $missing"
}

# find_stale PART...: which of them do not stand, what building them needs, and what it writes.
find_stale() {
  stale='' needed='' written='' parts=0
  for part in "$@"; do
    is_unfinished "$part" || ! "${part}_stands" || continue
    stale="$stale $part" parts=$((parts + 1))
    case $part in
      tool | harness | plain) needed="$needed cargo cc" written="$written target/cargo" ;;
      library) needed="$needed rt objcopy" written="$written target/staticlib $(written_for boundary_c)" ;;
      *) needed="$needed rt" written="$written target/bin $(written_for replay)" ;;
    esac
  done
}

# prepare PART...: builds what does not stand. What that needs and writes is looked at first, before anything slow; and once
# more after waiting for another build, which may have made what is asked for.
prepare() {
  find_stale "$@"
  [ -n "$stale" ] || return 0
  # shellcheck disable=SC2086 # words on purpose
  need $needed flock
  # shellcheck disable=SC2086
  check_writable $written
  lock
  find_stale "$@"
  # shellcheck disable=SC2086
  check_writable $written
  at=0
  for part in $stale; do
    at=$((at + 1))
    begun "$part"
    "build_$part"
    ended "$part"
  done
  unlock
}

# announce WORDS: what is built now, and which of how many parts that is.
announce() {
  which=''
  [ "$parts" -eq 1 ] || which="$at of $parts: "
  printf 'tarravane: %s%s\n' "$which" "$1" >&2
}

# place PART LEFT FILE WHAT: of what the kit has left there, launcher/PART makes FILE.
place() {
  [ -f "$here/$2" ] || fail "the build left no $here/$2"
  "$here/launcher/$1" </dev/null || fail "$4 was not built"
  finished "$1" "$3"
}

# The kit proves and builds anew only what has changed, by checksums of its own.
build_program() {
  prove run replay "the program"
  place program crates/replay/out/replay "$program" "the program"
}

build_library() {
  prove lib boundary_c "the library"
  place library crates/boundary_c/out/libboundary_c.a "$library" "the library"
}

# run_cargo PACKAGE WHAT: the lock stays with the launcher; cargo has one of its own.
run_cargo() {
  announce "building $2, once"
  (cd "$here" && cargo build --release --offline --package "$1") </dev/null >&2 9<&- || fail "$2 was not built"
}

# Each alone, so that an error in the harness stops no command but its own.
build_tool() {
  run_cargo tarravane-cli "the tool"
  finished tool "$cli"
}

build_harness() {
  run_cargo harness "the harness"
  finished harness "$harness"
}

# The reference as a program: `bench --program` times it beside the proved one.
build_plain() {
  run_cargo reference "the reference"
  finished plain "$plain"
}
