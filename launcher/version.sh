# What this checkout is, found without a build.

# The number stands in Cargo.toml alone; pictures and dumps have it from there.
number() { sed -n 's/^version = "\(.*\)"$/\1/p' "$here/Cargo.toml" | head -n 1; }

# Only of a repository whose top this folder is: a copy inside another one is no commit of that.
commit() {
  unset GIT_DIR GIT_WORK_TREE GIT_INDEX_FILE
  [ "$(git -C "$here" rev-parse --show-toplevel 2>/dev/null)" = "$here" ] || { echo unknown; return; }
  id=$(git -C "$here" rev-parse --verify HEAD 2>/dev/null) || { echo unknown; return; }
  changed=$(git --no-optional-locks -C "$here" status --porcelain 2>/dev/null) || changed=unknown
  echo "$id${changed:+, and files that differ from it}"
}

kit() {
  kit=$(rt version 2>/dev/null) || { echo 'unknown (rt is not on the path)'; return; }
  pinned=$(cat "$here/kit-version")
  [ "$kit" = "$pinned" ] || kit="$kit (kit-version names $pinned)"
  echo "$kit"
}

# Their names, from the lines that give them.
editions() { sed -n 's/^ *[A-Z][A-Za-z0-9]* => "\([a-z0-9]*\)",$/\1/p' "$here/tools/handler/src/edition.rs" | tr '\n' ' ' | sed 's/ $//; s/ /, /g'; }

compiler() { rustc --version 2>/dev/null || echo 'unknown (rustc is not on the path)'; }

version_lines() { printf '%s\n' "tarravane $(number)" "commit: $(commit)" "kit: $(kit)" "editions: $(editions)" "compiler: $(compiler)"; }
