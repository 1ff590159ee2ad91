# shellcheck shell=bash disable=SC2154
# Part of tests/launcher-build, where everything is built: what cannot be written stops a build before anything slow, with one
# line; of two builds at once the second waits, and builds nothing anew. The build is run by another user than the owner.
stand_in rt <<<"#!/bin/sh
touch '$work/called'"
stand_in cargo <<<"#!/bin/sh
touch '$work/called'"
stand_in cc <<<'#!/bin/sh'
chmod 777 "$work"

# as_other STATUS LINES WORD...: the launcher as another user than the owner of the tree, who here can write what he may.
as_other() { ends "$1" "$2" "${drop[@]}" env -i "PATH=$work/stand-ins:$work/plain" "$tree/tarravane" "${@:3}"; }
# Without another user, the owner himself may write what he made unwritable neither.
lock_up() { chmod -R u-w,go-w "$@"; }
not_called() { expect "$1: nothing was started" no "$([ -e "$work/called" ] && echo yes || echo no)"; }

# A changed source, and one thing that the build writes that cannot be written: nothing runs, also not what was built before.
mkdir -p "$tree/crates/bits/out/incremental" "$tree/crates/bits/out/rlib/bits.rlib" "$tree/crates/replay/out"
touch "$tree/crates/bits/out/incremental/a" "$tree/crates/bits/out/rlib/stamp" "$tree/crates/bits/out/rlib/bits.rlib/a" "$tree/crates/replay/out/replay.o"
touch -d 2000-01-01 "$tree/target/bin/replay" "$tree/target/staticlib/libtarravane.a"
touch "$tree/crates/bits/src/lib.rt"
# unlocked: all that a build writes can be written.
unlocked() { chmod -R a+rwX "$tree/target" "$tree/crates"; }
for part in crates/bits/out crates/bits/out/incremental/a crates/bits/out/rlib/stamp crates/bits/out/rlib/bits.rlib/a crates/replay/out/replay.o crates/rules \
  target/bin target/bin/replay; do
  unlocked
  chmod a-w "$tree/$part"
  as_other 2 1 replay examples/broken-seal.trace
  says "tarravane: the build cannot write *$part (its owner is *"
done
for part in target/staticlib target/cargo/release target/cargo/release/tarravane-cli; do
  unlocked
  chmod a-w "$tree/$part"
  as_other 2 1 explain examples/broken-seal.trace
  says "tarravane: the build cannot write *$part (its owner is *"
done
unlocked
chmod a-w "$tree/target"
as_other 2 1 replay examples/broken-seal.trace
says "tarravane: the build cannot write *target (its owner is *"
# Another user's target/, as it is left by a build of his; and one folder that cannot be read either.
chmod a+w "$tree/target"
lock_up "$tree/target"
as_other 2 1 build
says "tarravane: the build cannot write *target (its owner is *"
unlocked
chmod 700 "$tree/crates/bits/out"
[ "$(id -u)" -ne 0 ] || { as_other 2 1 build && says "*crates/bits/out (its owner is root)*"; }
rm -rf "$tree"/crates/*/out
not_called 'what cannot be written'

# A fresh checkout that cannot be written, and a target that is no folder.
mv "$tree/target" "$work/kept"
chmod a-w "$tree"
as_other 2 1 replay examples/broken-seal.trace
says "tarravane: the build cannot write $tree (its owner is *"
chmod u+w "$tree"
for odd in file link; do
  case $odd in file) touch "$tree/target" ;; link) ln -s missing "$tree/target" ;; esac
  ends 2 1 env -i "PATH=$work/stand-ins:$work/plain" "$tree/tarravane" replay examples/broken-seal.trace
  says "*writes to $tree/target, and that is no folder"
  rm "$tree/target"
done
not_called 'a fresh checkout that cannot be written'

# A build that leaves its file where it cannot be touched, or leaves none, or an old one alone, is none.
stand_in rt <<<'#!/bin/sh
mkdir -p out'
ends 2 2 env -i "PATH=$work/stand-ins:$work/plain" "$tree/tarravane" replay examples/broken-seal.trace
says '*the build left no *crates/replay/out/replay'
cp target/bin/replay "$tree/crates/replay/out/replay"
stand_in touch <<<"#!/bin/sh
case \$* in */replay) exit 1 ;; esac
exec $(command -v touch) \"\$@\""
ends 2 2 env -i "PATH=$work/stand-ins:$work/plain" "$tree/tarravane" replay examples/broken-seal.trace
says '*tarravane: cannot write *target/bin/replay'
rm "$work/stand-ins/touch"
rm -rf "$tree/target"
stand_in rt <<<'#!/bin/sh
ls out/replay
exit 1'
ends 2 3 env -i "PATH=$work/stand-ins:$work/plain" "$tree/tarravane" replay examples/broken-seal.trace
says '*out/replay*the program was not built'
expect 'an old program is not taken' no "$([ -e "$tree/target/bin/replay" ] && echo yes || echo no)"

# A source that is changed while the build runs is newer than what was built of it.
rm -rf "$tree/target"
stand_in rt <<TXT
#!/bin/sh
echo called >>"$work/calls"
cp /bin/cat out/replay
sleep 0.05
touch ../bits/src/lib.rt
TXT
lines one two >"$work/input"
for _ in first second; do ends 0 1 env -i "PATH=$work/stand-ins:$work/plain" "$tree/tarravane" replay "$work/input"; done
expect 'a source that changed meanwhile' "$(lines called called)" "$(cat "$work/calls")"
rm "$work/calls"

# Two first builds at once: the second waits and says for what, then runs what the first one built.
rm -rf "$tree/target"
mkfifo "$work/go_on"
stand_in rt <<TXT
#!/bin/sh
echo called >>"$work/calls"
read -r line <"$work/go_on"
cp /bin/cat out/replay
TXT
two=("PATH=$work/stand-ins:$work/plain" "$tree/tarravane" replay "$work/input")
timeout 60 env -i "${two[@]}" >"$work/first" 2>"$work/first.said" &
first=$!
await test -s "$work/calls"
timeout 60 env -i "${two[@]}" >"$work/second" 2>"$work/second.said" &
second=$!
await grep -qs "^tarravane: waiting for another build in $tree to end$" "$work/second.said"
expect 'the second does not build beside the first' called "$(cat "$work/calls")"
echo >"$work/go_on"
wait $first
wait $second
expect 'one build' called "$(cat "$work/calls")"
expect 'the second says only that it waits' 1 "$(wc -l <"$work/second.said" | tr -d ' ')"
for one in first second; do expect "the $one runs what was built" "$(lines one two)" "$(cat "$work/$one")"; done

# A build that was killed holds nobody up, and what it left is not taken for whole. A prover that outlives its launcher is waited for.
rm -rf "$tree/target" "$work/calls"
env -i "${two[@]}" >/dev/null 2>&1 &
first=$!
await test -s "$work/calls"
mkdir "$tree/target/bin"
cp /bin/cat "$tree/target/bin/replay"
kill -s KILL $first
wait $first 2>/dev/null || true
timeout 60 env -i "${two[@]}" >"$work/second" 2>"$work/second.said" &
second=$!
await grep -qs '^tarravane: waiting for another build' "$work/second.said"
echo >"$work/go_on"
called_again() { [ "$(wc -l <"$work/calls")" -eq 2 ]; }
await called_again
echo >"$work/go_on"
wait $second
expect 'it is built anew' "$(lines called called)" "$(cat "$work/calls")"
expect 'and runs' "$(lines one two)" "$(cat "$work/second")"
rm -rf "$tree/target" "$work/calls" "$work/called"
rm -f "$work"/stand-ins/*
