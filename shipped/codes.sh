# What the codes of `lint` say. Read by ./rehearse, behind help.sh, where that is asked. They stand in the tables of docs/LINT.md,
# with links to what docs/LIVE_OTP.md has of live nodes.

# The path of a page, in `page`.
find_page() {
  for page in "$top/docs/$1" "$top/../../share/doc/rehearse/docs/$1"; do
    [ ! -f "$page" ] || return 0
  done
  say "docs/$1 isn't here"
  return 1
}

# Tells what a code of `lint` says, and what live nodes do there. It fails where no such code is known, and says which are near.
tell_finding() {
  local page
  if [ -z "$1" ]; then
    say "lint --explain takes a code and nothing else; docs/LINT.md has all codes"
    return 1
  fi
  tell_code "$1" && return
  find_page LINT.md || return
  [[ ${1,,} =~ ^[a-z][a-z0-9_]*$ ]] && tell_row "${1,,}" && return
  say "lint has no code $(tr -cd '[:print:]' <<< "${1:0:40}")$(near_codes "${1,,}"); docs/LINT.md has all codes"
  return 1
}

# Tells the row of a code, and the entries to which it has links. Fails where there is none.
tell_row() {
  local row level says linked=() place link='^(.*)\[([^]]*)\]\(LIVE_OTP\.md#([a-z0-9-]+)\)(.*)$'
  row=$(grep -m 1 -E "^\| ([^|]* )?\`$1\`" "$page") || return
  [[ $row != *"\`$1\`\\*"* ]] || place=star
  IFS='|' read -r _ _ level says <<< "$row"
  # An error has no column for its kind.
  [[ $level == @(' warning '|' hint ') ]] || { says=$level && level=' error '; }
  while [[ $says =~ $link ]]; do
    says=${BASH_REMATCH[1]}${BASH_REMATCH[2]}${BASH_REMATCH[4]}
    linked=("${BASH_REMATCH[3]}" "${linked[@]}")
  done
  says=${says%|*} says=${says# } says=${says% }
  printf '%s: %s\n\n%s.\n' "$1" "${level//[^a-z]/}" "${says^}"
  [ -z "${place-}" ] || printf '%s\n' "Live nodes hang there, and have another past from there on: lint tells no more of the steps, unless --all is given."
  ((${#linked[@]} == 0)) || { find_page LIVE_OTP.md && for place in "${linked[@]}"; do tell_entry "$place"; done; }
}

# Tells an entry of what live nodes do otherwise, by its anchor.
tell_entry() {
  sed -nE "/^#+ <a id=\"$1\"><\/a>/,/^$/p" "$page" | sed -E -e 's/^#+ <a id="[^"]*"><\/a>(.*)$/\nLive nodes (docs\/LIVE_OTP.md): \1\n/' \
    -e 's/\*\*//g' -e 's/\[([^]]*)\]\([^)]*\)/\1/g' -e '${/^$/d}'
}

# At most three codes of the page that are near a word, as words behind "; near:": those in which it stands, or that it becomes by
# the fewest edits, at most half as many as it has letters.
near_codes() {
  local list
  list=$(grep -oE '^\| `[a-z][^|]*' "$page" | grep -oE '[a-z][a-z0-9_]{3,}' | awk -v word="$1" '
    function least(a, b) { return a < b ? a : b }
    function edits(a, b,  i, j, one, row, next_row) {
      for (j = 0; j <= length(b); j++) row[j] = j
      for (i = 1; i <= length(a); i++) {
        next_row[0] = i
        for (j = 1; j <= length(b); j++) {
          one = row[j - 1] + (substr(a, i, 1) != substr(b, j, 1))
          next_row[j] = least(one, least(row[j], next_row[j - 1]) + 1)
        }
        for (j = 0; j <= length(b); j++) row[j] = next_row[j]
      }
      return row[length(b)]
    }
    { far = length(word) > 3 && index($0, word) ? 0 : edits(word, $0); if (2 * far <= length(word)) print far, NR, $0 }' |
    sort -n -k 1,1 -k 2,2 | head -n 3 | cut -d ' ' -f 3 | paste -sd ' ')
  [ -z "$list" ] || echo "; near: ${list// /, }"
}
