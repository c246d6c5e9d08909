# Where files were named: which line of which of them is refused, and what was expected there. Read by ./rehearse, behind
# front.sh and help.sh, where that is needed.

# Tells what the program refused: the cluster file, a line that is no command, or what was expected.
tell_place() {
  local part= line= text=
  case $status in
    2)
      . "$top/shipped/faults.sh"
      tell_cluster
      ;;
    3) tell_line ;;
    9)
      case $words in
        verify) tell_expectations ;;
        run) tell_refused ;;
      esac
      ;;
  esac
}

# Finds the line of the whole input that has this number: the file with its number in `part`, the number there in `line`, and in
# `text` what stands there, cut at 40 bytes.
find_place() {
  local count
  line=$1
  for part in "${!parts[@]}"; do
    count=$(wc -l < "${parts[part]}")
    ((line > count && part + 1 < ${#parts[@]})) || break
    line=$((line - count))
  done
  text=$(sed -n "$line{p;q}" "${parts[part]}" | head -c 42 | tr '\0' '?')
  text=${text%$'\r'}
  ((${#text} <= 40)) || cut_text
  text=${text//$'\t'/\\t}
  text=${text//[[:cntrl:]]/?}
}

# Cuts the text at 40 bytes, or before a character of UTF-8 that would be torn.
cut_text() {
  local next=${text:40:1}
  text=${text:0:40}
  if [[ $next == [$'\x80'-$'\xbf'] ]]; then
    while [[ $text == *[$'\x80'-$'\xbf'] ]]; do text=${text%?}; done
    text=${text%[$'\xc0'-$'\xff']}
  fi
  text+=..
}

# The number of the line `===` in the whole input.
mark() {
  cat -- "${parts[@]}" | grep -anxm 1 $'===\r\\?' | head -n 1 | cut -d : -f 1
}

# Tells the line that is no command, and what would be one. The program is asked once more for its number, by the subcommand that
# tells it last and alone.
tell_line() {
  local plain=run told
  [[ $words != @(sessions|sweep) ]] || plain=$words
  told=$(cat -- "${parts[@]}" | "$program" "$plain" 2> /dev/null | tail -n 1)
  [[ $told =~ ^bad\ line\ ([0-9]+)$ ]] || return
  find_place $(($(mark) + BASH_REMATCH[1]))
  printf '%s:%s: "%s" is no command (%s)\n' "$(name_of "$part")" "$line" "$text" "$(expected "$plain" "${BASH_REMATCH[1]}")" >&2
}

# Tells the places of the first expectations that don't hold: the program counts lines of the whole input.
tell_expectations() {
  local number
  while read -r _ number _; do
    find_place "${number%:}"
    printf '%s:%s: "%s" differs from what is expected\n' "$(name_of "$part")" "$line" "$text" >&2
  done < <(cat -- "${parts[@]}" | "$program" "${words[@]}" 2> /dev/null | grep -aE -m 10 '^line [0-9]+: ')
}

# Prints what `lint` found: the file and its own line stand in place of a line of the whole input, and the first file before what has no
# line. In JSON the file has a field of its own.
tell_findings() {
  local found number rest part counts=() names=()
  for part in "${!parts[@]}"; do
    counts+=("$(wc -l < "${parts[part]}")")
    names+=("$(name_of "$part")")
  done
  while IFS= read -r found; do
    if [[ $found =~ ^([0-9]+):\ (.*)$ || $found =~ ^\{\"line\":([0-9]+),(.*)$ ]]; then
      number=${BASH_REMATCH[1]} rest=${BASH_REMATCH[2]}
      for part in "${!counts[@]}"; do
        ((number > counts[part] && part + 1 < ${#counts[@]})) || break
        number=$((number - counts[part]))
      done
      if [[ $found == \{* ]]; then
        found="{\"file\":$(json_text "${names[part]}"),\"line\":$number,$rest"
      else
        found="${names[part]}:$number: $rest"
      fi
    elif [[ $found == @(error|warning|hint)\ * ]]; then
      found="${names[0]}: $found"
    elif [[ $found == '{"kind":'* ]]; then
      found="{\"file\":$(json_text "${names[0]}"),${found#\{}"
    fi
    printf '%s\n' "$found" || return
  done
}

# A text without control characters as a string of JSON.
json_text() {
  local text=${1//\\/\\\\}
  printf '"%s"' "${text//\"/\\\"}"
}

# Tells the first steps that were refused, which lines of JSON have with the numbers of their lines.
tell_refused() {
  local option options=() number answer name cause remedy
  for option in "${words[@]}"; do
    [[ $option == @(--strict|--echo) ]] || options+=("$option")
  done
  while read -r number answer; do
    find_place $(($(mark) + number))
    cause=
    find_answer "${answer%% *}"
    printf '%s:%s: "%s" is refused: %s%s\n' "$(name_of "$part")" "$line" "$text" "$answer" "${cause:+ ($cause)}" >&2
  done < <(cat -- "${parts[@]}" | "$program" "${options[@]}" --json 2> /dev/null |
    sed -nE 's/^\{"line":([0-9]+),.*"answer":"refused (S[0-9]+ [^"]*)".*$/\1 \2/p' | head -n 10)
}

# What stands in a line of a script for `run`, `sessions` or `sweep`, seen from what stands there now.
expected() {
  local row usage example list=() word=
  read -r -a list <<< "$text"
  word=${list[0]-}
  if [[ $1 == sessions && $word == [1-8] && $text != *\\t* ]]; then
    word=${list[1]-}
    (($2 <= 65535)) || { echo "sessions make at most 65,535 commands" && return; }
  fi
  if [[ $word == \#* ]]; then
    echo "the # of a comment is the first byte of its line"
  elif [[ $text == *' #'* ]]; then
    echo "a comment has a line of its own, of which # is the first byte"
  elif [[ $text == *\\t* ]]; then
    echo "words stand apart by spaces, not by tabs"
  elif [[ $1 == sessions && ${list[0]-} != [1-8] ]]; then
    echo "the number of a session, 1 to 8, stands before each command: 1 boot a@x"
  elif [[ $word == plan ]]; then
    [ "$1" = sweep ] && echo "plan NAME" || echo "plans are for sweep"
  elif [[ $1 == sweep && ${#list[@]} -eq 1 && $word == @(undo|redo|undo_all|redo_all|show) ]]; then
    echo "a plan has events alone: $(first_words)"
  elif find_row "${word,,}"; then
    usage=$(field usage "$row") example=$(field example "$row")
    [ "$usage" = "$example" ] && echo "$usage" || echo "$usage, as $example"
  else
    first_words
  fi
}

# The first commands of the table.
first_words() {
  local row list=()
  while read -r row; do
    [[ $row != *'"word"'* ]] || list+=("$(field word "$row")")
    ((${#list[@]} < 3)) || break
  done < "$top/companions/rehearse_tools/commands.json"
  printf '%s, ' "${list[@]}"
  echo ..
}
