# Help and version, on standard output with status 0, also where no program can be run. Read by ./rehearse, which sets `top`,
# where that is needed. The texts are those of the program, which lie in docs/help, with what ./rehearse does itself; a command of
# scripts is told from the table that docs/make writes, and what a code means from the page of answers.
helps=$top/docs/help

# The text of help or version that the words ask for. Fails where they ask for none.
asked() {
  case "$1" in
    -h | --help) tell_whole ;;
    -V | --version) tell_version ;;
    help) (($# <= 2)) && tell_topic "${2-}" ;;
    *)
      is_subcommand "$1" || return
      read_words "$@"
      [ -n "$asks_help" ] || return
      { ((${#files[@]} == 1)) && tell_command "${files[0]}"; } || tell_subcommand "$1"
      ;;
  esac
}

# Tells of one word: a subcommand, a command of scripts, a code of an answer or of `lint`. Of any other it says nothing.
tell_topic() {
  case "$1" in
    '' | help) tell_whole ;;
    *) { is_subcommand "$1" && tell_subcommand "$1"; } || tell_command "$1" || tell_code "$1" || {
      . "$top/shipped/codes.sh"
      tell_finding "$1" 2> /dev/null
    } ;;
  esac
}

# The whole help: that of the program, where this script's own statuses stand in place of the program's.
tell_whole() {
  local text
  text=$(< "$helps/rehearse.txt")
  printf '%s\n\n' "${text%%$'\n\nExit status'*}"
  printf '%s\n' "$(< "$helps/files.txt")" '' "$(< "$helps/statuses.txt")"
}

# The help of a subcommand, whose usage has files too.
tell_subcommand() {
  local line text=
  [ -f "$helps/$1.txt" ] || return
  while IFS= read -r line; do
    [[ $line != Usage:* ]] || line+=' [FILE]..'
    text+=$line$'\n'
  done < "$helps/$1.txt"
  [ "$1" != lint ] || text+=$'\n'$(< "$helps/explain.txt")$'\n'
  printf '%s\n%s\n' "$text" "$(< "$helps/files.txt")"
}

# The version, with the commit and the day of the program that would be run.
tell_version() {
  local version told value commit
  version=$(< "$helps/version.txt")
  if ! choose; then
    echo "$version (no program is here: ./build makes it)"
    return
  fi
  told=$("$program" --version 2>&1 < /dev/null)
  [[ $told =~ ^rehearse\ [0-9.]+$ ]] || told=$version
  find_value "$program" commit
  commit=${value:0:10}
  find_value "$program" time
  echo "$told (commit ${commit:-none}, built ${value%T*})"
}

# The text of a field in a row of the table of commands.
field() {
  [[ $2 =~ \"$1\":\ \"([^\"]*)\" ]] && printf '%s' "${BASH_REMATCH[1]}"
}

# The row of a command of scripts, in `row`.
find_row() {
  [[ $1 =~ ^[a-z_]+$ ]] || return
  while read -r row; do
    [[ $row != *"\"word\": \"$1\","* ]] || return 0
  done < "$top/companions/rehearse_tools/commands.json"
  return 1
}

# Tells of a command of scripts; the letters of its usage are explained in the help of `run`.
tell_command() {
  local row words codes text
  find_row "$1" || return
  [[ $row =~ \"notices\":\ \[([^]]*)\] ]] && words=${BASH_REMATCH[1]//\"/}
  [[ $row =~ \"refusals\":\ \[([^]]*)\] ]] && codes=${BASH_REMATCH[1]//[\",]/}
  printf '%s: %s\n\nExample: %s\n' "$(field usage "$row")" "$(field help "$row")" "$(field example "$row")"
  [ -z "$words" ] || printf '\nWhat follows from it is told by lines of these kinds: %s.\n' "$words"
  [ -z "$codes" ] || tell_refusals $codes
  text=$(< "$helps/run.txt")
  if [[ $(field usage "$row") == *' '* && $text == *$'\n\nN and A are '* ]]; then
    text=${text#*$'\n\nN and A are '}
    printf '\nN and A are %s\n' "${text%%$'\n\n'*}"
  fi
  printf '\n`rehearse run --help` has all commands.\n'
}

# Tells for which reasons a command is refused.
tell_refusals() {
  local code name cause remedy
  printf '\nIt is refused where one of these holds:\n\n'
  for code; do
    find_answer "$code" && printf '  %-28s %s\n' "${name#refused }" "$cause" || printf '  %s\n' "$code"
  done
}

# What the page of answers has of a code: its line in `name`, in `cause` what causes it, and in `remedy` what to do.
find_answer() {
  local row link='^(.*)\[([^]]*)\]\([^)]*\)(.*)$'
  row=$(grep -hsm 1 -E "^\| \`(refused |sweep refused )?$1 " "$top"/docs/*.md "$top"/../../share/doc/rehearse/docs/*.md | head -n 1)
  [ -n "$row" ] || return
  while [[ $row =~ $link ]]; do
    row=${BASH_REMATCH[1]}${BASH_REMATCH[2]}${BASH_REMATCH[3]}
  done
  row=${row//\`/}
  IFS='|' read -r _ name cause remedy _ <<< "$row"
  name=${name# } name=${name% } cause=${cause# } cause=${cause% } remedy=${remedy# } remedy=${remedy% }
}

# Tells of a code of an answer.
tell_code() {
  local code=${1^^} name cause remedy
  [[ $code =~ ^[CSTV][0-9]+$ ]] || return
  [[ $code != T* ]] || code="C1 $code"
  find_answer "$code" || return
  printf '%s\n\nCause: %s\n' "$name" "$cause"
  [ -z "$remedy" ] || printf '\nRemedy: %s\n' "$remedy"
}
