# For a script that runs a proved program of crates/: it sets `top` to the repository's folder and sources this file.

# lines_of NAME: the lines of crates.txt, without comments, of a crate and of all crates below it.
lines_of() {
  awk -v program="$1" '
    { sub(/#.*/, "") }
    split($0, sides, ":") == 2 { split($0, words, /[ :]/); line[words[1]] = $0; uses[words[1]] = sides[2] }
    END {
      found[count = 1] = program
      for (at = 1; at <= count; at++) {
        print line[found[at]]
        others = split(uses[found[at]], names, " ")
        for (other = 1; other <= others; other++)
          if (names[other] in line && !seen[names[other]]++) found[++count] = names[other]
      }
    }' "$top/crates.txt"
}

# stale NAME: whether the program is missing, or older than a source, definition or proof of its crate or of one below
# it, or was built by other lines of crates.txt.
stale() {
  local program=$top/crates/$1/out/$1 lines name folders=()
  [ -x "$program" ] || return 0
  lines=$(lines_of "$1")
  if [ "$top/crates.txt" -nt "$program" ]; then
    [ "$lines" = "$(cat "$program.lines" 2>/dev/null)" ] || return 0
  fi
  while IFS=' :' read -r name _; do folders+=("$top/crates/$name"/{src,specs,proofs}); done <<<"$lines"
  [ -n "$(find "${folders[@]}" -newer "$program" -print -quit 2>/dev/null)" ]
}

# note_commit PROGRAM: writes the commit that the program was made from into PROGRAM.commit, which `innfeed -V` reads;
# none if files of the tree differ from it, or if there is no git.
note_commit() {
  local commit
  rm -f "$1.commit"
  git -C "$top" diff --quiet HEAD -- 2>/dev/null || return 0
  commit=$(git -C "$top" rev-parse --short=12 HEAD 2>/dev/null) || return 0
  printf '%s\n' "$commit" >"$1.commit"
}

# build NAME: builds and proves the program if it is stale, and reports each crate that was proved for it on standard
# error. Nothing is printed if nothing is built. The status is 70 if it can't be built.
build() {
  stale "$1" || return 0
  local began lines program=$top/crates/$1/out/$1
  began=$(date +%s.%N) lines=$(lines_of "$1")
  echo "$1: building and proving the program first, which can take two hours from nothing" >&2
  "$top/tools/prove" "$1" || { echo "$1: the program could not be built" >&2; return 70; }
  printf '%s\n' "$lines" >"$program.lines"
  note_commit "$program"
  touch -d "@$began" "$program" # what is changed from here on is newer
}
