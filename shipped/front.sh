# How ./rehearse stands in front of the program, and does as other commands do: help and version on standard output, files in place
# of standard input, a line on standard error where the program ended without a word. Read by ./rehearse, which has set `top`.

# The longest input that the program reads, in bytes.
most=16777216

say() {
  printf 'rehearse: %s\n' "$@" >&2
}

# What takes files in place of standard input: the subcommands, as docs/make writes them here.
is_subcommand() {
  case "${1-}" in
    run | check | lint | story | verify | sessions | sweep | explore) ;;
    *) return 1 ;;
  esac
}

# Tells what the words ask of help, version or a code of `lint`, and ends. Else it does nothing.
tell_asked() {
  local text code
  [[ " $* " == *\ @(-h|--help|-V|--version|help|--explain|--explain=*)\ * ]] || return 0
  . "$top/shipped/help.sh"
  if ! text=$(asked "$@"); then
    asks_code "$@" || return 0
    . "$top/shipped/codes.sh"
    text=$(tell_finding "$code") || exit 1
  fi
  printf '%s\n' "$text" 2> /dev/null && exit 0
  say "standard output can't be written"
  exit 4
}

# Do the words ask what a code of `lint` says? Then it is in `code`; nothing is there where they have no code, or other words too.
asks_code() {
  local word
  code=
  [ "$1" = lint ] || return
  case "${2-}" in
    --explain) (($# != 3)) || code=$3 ;;
    --explain=*) (($# != 2)) || code=${2#*=} ;;
  esac
  for word; do
    case $word in
      --) return 1 ;;
      --explain | --explain=*) return ;;
    esac
  done
  return 1
}

# The words of a command line: `words` for the program, `files` in place of standard input, and in `asks_help` whether help is asked.
# An option that isn't known here goes to the program as it is; behind `--` all words are files. docs/make writes which options take
# a value.
read_words() {
  words=("$1") files=() asks_help=
  shift
  while (($# > 0)); do
    case $1 in
      --)
        files+=("${@:2}")
        return
        ;;
      -h | --help) asks_help=yes ;;
      --pick | --rules | --workers | --states | --memory)
        words+=("${@:1:2}")
        (($# == 1)) || shift
        ;;
      -?*) words+=("$1") ;;
      *) files+=("$1") ;;
    esac
    shift
  done
}

# Runs the program on the words of this script, and ends as it does.
stand_in_front() {
  is_subcommand "${1-}" || exec -a rehearse "$program" "$@"
  read_words "$@"
  [ -z "$asks_help" ] || exec -a rehearse "$program" "$@"
  fill_closed
  ! is_interactive || skip_last
  if ((${#files[@]} > 0)); then
    read_files
    shut=${shut/<}
    if is_interactive; then
      talk
    elif [ "$words" = lint ]; then
      run < <(exec cat -- "${parts[@]}" 2> /dev/null) > "$room/found"
      . "$top/shipped/places.sh"
      tell_findings < "$room/found" 2> /dev/null || status=4
    else
      run < <(exec cat -- "${parts[@]}" 2> /dev/null)
    fi
  else
    [ ! -t 0 ] || say "reads standard input, which Ctrl-D on a line of its own ends; \`rehearse $1 FILE..\` reads files"
    run
  fi
  tell_end
  exit "$status"
}

# Is each line to be answered as it comes?
is_interactive() {
  [[ $words == run && " ${words[*]} " == *' --interactive '* ]]
}

# Drops a last word `-`: standard input goes on behind the files as it is.
skip_last() {
  ((${#files[@]} == 0)) || [ "${files[-1]}" != - ] || unset 'files[-1]'
}

# Runs the program on the files and then on standard input, whose lines go on to it as they come. Who hands them on ends with it, so
# that it takes no line of whoever reads next.
talk() {
  local input
  [ ! -t 0 ] || say "reads standard input behind the files, a line at a time; Ctrl-D on a line of its own ends it"
  exec {input}< <(feed)
  feeder=$!
  run <&"$input"
  exec {input}<&-
  stop_feeding
}

# Ends who hands standard input on, if somebody does.
stop_feeding() {
  [ -z "${feeder-}" ] || kill "$feeder" 2> /dev/null
}

# Hands on the files, and then standard input.
feed() {
  cat -- "${parts[@]}"
  exec cat
}

# Opens the standard devices that are closed, so that no other file takes their numbers, and keeps in `shut` which these are.
fill_closed() {
  shut=
  { : 9<&0; } 2> /dev/null || { shut+='<' && exec 0< /dev/null; }
  { : 9<&1; } 2> /dev/null || { shut+='>' && exec 1> /dev/null; }
  { : 9<&2; } || exec 2> /dev/null
}

# Runs the program as a child, and keeps its status. A signal that would end this script ends the program, and then this script.
run() {
  local signal child= ended_by=
  for signal in INT TERM HUP QUIT; do
    trap "ended_by=$signal; [ -z \"\$child\" ] || kill -s TERM \"\$child\" 2> /dev/null" "$signal"
  done
  start <&0 &
  child=$!
  [ -z "$ended_by" ] || kill -s TERM "$child" 2> /dev/null
  while
    wait "$child" 2> /dev/null
    status=$?
    kill -s 0 "$child" 2> /dev/null
  do :; done
  trap - INT TERM HUP QUIT
  [ -z "$ended_by" ] || end_by "$ended_by"
}

# Becomes the program, for which the devices are closed that were.
start() {
  [[ $shut != *'<'* ]] || exec 0<&-
  [[ $shut != *'>'* ]] || exec 1>&-
  exec -a rehearse "$program" "${words[@]}"
}

# Ends this script by a signal, as a program ends that leaves it as it is.
end_by() {
  stop_feeding
  drop_files
  kill -s "$1" $$
  exit $((128 + $(kill -l "$1")))
}

# Says why the program ended, where it didn't say it itself. Of a reader that went away nothing is said, as by other commands.
tell_end() {
  local why
  case $status in
    2 | 3 | 9)
      ((${#files[@]} == 0)) || {
        . "$top/shipped/help.sh"
        . "$top/shipped/places.sh"
        tell_place
      }
      ;;
    4)
      if find_read_fault; then
        say "$why"
      elif [[ $shut == *'>'* ]]; then
        say "standard output is closed"
      elif [ -p /dev/stdout ] && read -r -t 0 -u 1; then
        end_by PIPE
      else
        say "$(joined_faults)"
      fi
      ;;
    5) say "the program asked for memory and was refused it" ;;
    *) ((status <= 128)) || say "the program was ended by the signal $(kill -l $((status - 128)))" ;;
  esac
}

# What can't be told apart behind a pipe that is read to its end.
joined_faults() {
  local lost="standard output can't be written: it may be full"
  if { ((${#files[@]} > 0)) && ! is_interactive; } || [ -f /dev/stdin ]; then
    echo "$lost"
  else
    echo "$lost, or standard input is over 16 MiB ($most bytes)"
  fi
}

# Why the input couldn't be read, as far as it shows that now, in `why`. It is read before anything is written.
find_read_fault() {
  local kind= size=0 got
  why="the input is over 16 MiB ($most bytes)"
  if ((${#files[@]} > 0)); then
    (($(cat -- "${parts[@]}" | wc -c) > most))
    return
  fi
  why="standard input is closed"
  [[ $shut != *'<'* ]] || return 0
  IFS='|' read -r kind size < <(stat -c '%F|%s' - 2> /dev/null)
  why="standard input is a directory"
  [ "$kind" != directory ] || return 0
  why="standard input is over 16 MiB ($most bytes)"
  [[ $kind != regular* ]] || ((size <= most)) || return 0
  [ ! -t 0 ] && read -r -t 0 || return 1
  got=$({ head -c 1 | wc -c; } 2>&1)
  [[ ${got%%$'\n'*} != 1 ]] || return 0
  [ "$got" != 0 ] || return 1
  got=${got%%$'\n'*}
  why="standard input can't be read: ${got##*: }"
}

# Copies the files into `parts`, in a folder of their own: each but the last ends with LF, and behind the first stands a line `===`
# if it has none. Ends with status 4 where one can't be read.
read_files() {
  local number why
  parts=()
  trap drop_files EXIT
  room=$(mktemp -d "${TMPDIR:-/tmp}/rehearse.XXXXXXXX") || exit 4
  for number in "${!files[@]}"; do
    parts[number]=$room/$number
    copy_file "${files[number]}" "${parts[number]}" || {
      say "$(name_of "$number"): $why"
      exit 4
    }
    ((number + 1 == ${#files[@]})) || end_line "${parts[number]}"
  done
  grep -aqx $'===\r\\?' "${parts[0]}" && return
  end_line "${parts[0]}"
  echo === >> "${parts[0]}"
}

# Copies a file, or standard input for `-`, up to one byte more than the program reads; else it fails, and tells in `why`.
copy_file() {
  if [ "$1" = - ]; then
    why="it is closed"
    [[ $shut != *'<'* ]] || return
    [ ! -t 0 ] || say "reads standard input, which Ctrl-D on a line of its own ends"
    why=$(exec head -c $((most + 1)) 2>&1 > "$2")
  else
    why=$(exec head -c $((most + 1)) 2>&1 < "$1" > "$2")
  fi && return
  why=${why##*: }
  return 1
}

# Ends the last line of a file that has any text.
end_line() {
  local last=
  [ -s "$1" ] || return 0
  IFS= read -r -d '' -n 1 last < <(exec tail -c 1 "$1")
  [ "$last" = $'\n' ] || echo >> "$1"
}

# The name of a file, as it is told.
name_of() {
  local name=${files[$1]//[[:cntrl:]]/?}
  [ "$name" != - ] || name='standard input'
  echo "${name:-''}"
}

# Removes the copies.
drop_files() {
  [ -z "${room-}" ] || rm -rf -- "$room"
}
