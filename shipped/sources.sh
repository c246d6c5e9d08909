# What a program is built from, and whether a program that is there was built from what this checkout has. Read by
# ./rehearse, ./build and shipped/check, which set `top`.
#
# Beside a program PROGRAM stands a text PROGRAM.txt, a word and its value a line:
#   sha256   the SHA-256 of the program
#   kit      the kit that proved and built it, as `rt version` tells it
#   commit   the commit with its sources; `none` if they were changed and not committed
#   time     when it was built
#   sources  one checksum over all that it was built from: of each crate that it stands on `src`, `specs`, `proofs` and
#            the line of crates.txt

# The crates that a crate stands on, lowest first, and the crate itself, as a list of words in `crates`; the lines that
# crates.txt has of them, in that order, in `crate_lines`.
find_crates() {
  local line name
  local -A below=() lines=()
  while IFS= read -r line; do
    name=${line%%:*}
    [[ $line == \#* || $line != *:* ]] || below[${name%% *}]=${line#*:} lines[${name%% *}]=$line
  done < "$top/crates.txt"
  crates=
  crate_lines=
  add_crates "$1"
}

add_crates() {
  local name
  for name in ${below[$1]:-}; do
    [[ -z ${below[$name]+is} || " $crates " == *" $name "* ]] || add_crates "$name"
  done
  crates+=" $1"
  crate_lines+=${lines[$1]}$'\n'
}

# The checksum of what a program is built from, by the bytes of all files. A few processes make it, however many crates
# and files there are: whoever calls ./rehearse waits for it.
checksum_of() {
  local crates crate_lines name folders=()
  find_crates "$1"
  for name in $crates; do
    folders+=("crates/$name/src" "crates/$name/specs" "crates/$name/proofs")
  done
  (
    cd "$top" || exit 1
    export LC_ALL=C
    printf %s "$crate_lines"
    find "${folders[@]}" -type f -print0 2> /dev/null | sort -z | xargs -0 sha256sum
  ) | sha256sum | cut -d ' ' -f 1
}

# The folders of what a program is built from, and crates.txt, as a list in `paths`.
find_paths() {
  local crates crate_lines name
  find_crates "$1"
  paths=(crates.txt)
  for name in $crates; do
    paths+=("crates/$name/src" "crates/$name/specs" "crates/$name/proofs")
  done
}

# The value of a word in the text beside a program, or nothing, in `value`.
find_value() {
  local word rest
  value=
  [ -f "$1.txt" ] || return
  while read -r word rest; do
    [ "$word" != "$2" ] || value=$rest
  done < "$1.txt"
}

# Was this program built from what this checkout has? Git tells it in a few milliseconds, from the commit in the text;
# where it can't, or tells a difference (in a line of crates.txt about another crate, say), the checksum does. Where there
# are no sources, as in a package, it was.
is_current() {
  local program=$1 name=$2 value paths
  [ -x "$program" ] && [ -f "$program.txt" ] || return 1
  [ -f "$top/crates.txt" ] || return 0
  find_value "$program" commit
  if [ "$value" != none ]; then
    find_paths "$name"
    git -C "$top" diff --quiet --no-ext-diff "$value" -- "${paths[@]}" 2> /dev/null && return 0
  fi
  find_value "$program" sources
  [ "$value" = "$(checksum_of "$name")" ]
}
