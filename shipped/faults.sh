# What is wrong with a cluster file that was refused, and where. Read by ./rehearse, behind places.sh, where files were named. The
# program tells a code, and the line of a text that can't be read. Where it tells no line it is asked again, over the same file
# with one more term: of two faults it tells the first one, so its answer shows on which side of that term the other one is.

# The longest file in which a term is looked for, in bytes.
largest=1048576

# Terms with a fault of their own, each with that fault: of a term's shape or name, and of its parts.
probes=("{node, '', []}.|C11 bad_name" "{}.|C10 bad_value" "{application, 'rehearse-probe', [{mod, 1}]}.|C10 bad_value"
  "{application, 'rehearse-probe', [{mod, []}, {mod, []}]}.|C7 duplicate_parameter")

# The parameters, keys and sections that are read; where one is called otherwise it is skipped.
read_keys=(distributed sync_nodes_mandatory sync_nodes_optional sync_nodes_timeout permissions applications mod start_phases kernel rehearse)

# Tells the fault of a cluster file, with its line, and what causes it by the page of answers.
tell_cluster() {
  local fault code=C1 name cause= remedy
  fault=$(cat -- "${parts[@]}" | first_fault)
  [ "$fault" != 'C1 T3 not_utf8' ] || fault+=$(other_bytes)
  [[ $fault =~ ^(C[0-9]+( T[0-9]+)?)\  ]] && code=${BASH_REMATCH[1]} && find_answer "$code" && shorten_cause "${code#C1 }"
  if [[ $fault =~ ^(.*)\ line\ ([0-9]+)(.*)$ ]]; then
    fault=${BASH_REMATCH[1]}${BASH_REMATCH[3]}
    tell_text "${BASH_REMATCH[2]}"
  elif [ ! -s "${parts[0]}" ] || [ "$(mark)" = 1 ]; then
    printf '%s: refused: %s (the file is empty)\n' "$(name_of 0)" "$fault" >&2
  elif [ "$code" = C8 ]; then
    tell_mismatch "${fault#C8 mismatch }"
  elif [[ $code != C[129] ]] && find_term; then
    tell_term
  else
    printf '%s: refused: %s%s\n' "$(name_of 0)" "$fault" "${cause:+ ($cause)}" >&2
  fi
}

# The fault of a cluster file that is read.
first_fault() {
  local told
  told=$("$program" check 2> /dev/null | head -n 1)
  printf '%s' "${told#cluster refused }"
}

# Tells the line of a text that can't be read.
tell_text() {
  local list=()
  find_place "$1"
  read -r -a list <<< "$text"
  cause=${cause// K / $line }
  if [[ $text =~ ^[[:space:]]*(=+|--+)[[:space:]]*$ ]] && (($1 < $(mark))); then
    cause="a line === with nothing else on it ends the cluster file"
  elif [[ $line == 1 && $text == $'\xef\xbb\xbf'* ]]; then
    cause="the file begins with a byte order mark"
  elif [[ $line == 1 && $text == @($'\xff\xfe'|$'\xfe\xff')* ]]; then
    cause="the file is in UTF-16: iconv -f UTF-16 -t UTF-8 makes it UTF-8"
  elif find_row "${list[0]-}"; then
    cause="that is a command of a script, which comes after a line ==="
  elif [[ $fault == 'C1 T1 '* ]]; then
    find_slip "$1"
  fi
  if (($1 >= $(mark))); then text='the cluster file ends here, and'; else text="\"$text\""; fi
  printf '%s:%s: %s is refused: %s%s\n' "$(name_of "$part")" "$line" "$text" "$fault" "${cause:+ ($cause)}" >&2
}

# Finds what may have been forgotten on this line of the first file or before it, and puts it in place of the cause: the quotes of
# a name, or what ends a line.
find_slip() {
  local slip
  slip=$(head -n "$1" "${parts[0]}" | awk -v last="$1" -v end="$(mark)" '
    { code = $0; sub(/\r$/, "", code); gsub(/\\./, "", code); sub(/^[ \t]*%.*/, "", code); sub(/[ \t]%.*/, "", code) }
    NR < last && !odd && gsub(/\x27/, "\x27", code) % 2 { odd = NR }
    NR < last && code ~ /[^ \t]/ { before = NR; ends = code; sub(/[ \t]+$/, "", ends) }
    NR == last {
      sub(/^[ \t]+/, "", code)
      begins = code
      gsub(/\x27[^\x27]*\x27|"[^"]*"/, "", code)
      is_bare = code ~ /[a-z0-9_@][-.][a-z]/
    }
    END {
      if (is_bare) print "a name with - or . needs quotes"
      else if (odd) print "line " odd " has an odd number of quotes"
      else if (before && ends !~ /[.,(\[{]$/ && last >= end) print "line " before " ends without a dot"
      else if (before && ends !~ /[.,(\[{]$/ && begins ~ /^\{(node|application|profile)[ ,]/) print "line " before " ends without a dot"
      else if (before && ends !~ /[.,(\[{]$/ && begins ~ /^[\[{\x27"a-z0-9]/) print "line " before " ends without a comma"
    }' 2> /dev/null)
  [ -z "$slip" ] || cause="$slip; else: rehearse help T1"
}

# What the program tells of the first file with something more after a line; the lines of the term are changed before, if a third
# word says how.
fault_with() {
  sed -E -e "${3:+$((first + 1)),$last$3}" "${parts[0]}" | sed -e "$1r /dev/fd/3" 3<<< "$2" | first_fault
}

# How a parameter, key or section is called otherwise, so that it is skipped.
skipping() {
  echo "s/$(head_of "$1")/{skipped_$1,/g"
}

# How the section `rehearse` is ended before a parameter, which stays there empty; the rest goes into a section that is skipped.
ending_at() {
  echo "s/$(head_of "$1")/{$1, []}]}, {skipped_rehearse, [{$1,/"
}

# The pattern of what a parameter, key or section begins with.
head_of() {
  echo "\\{[[:space:]]*$1[[:space:]]*,"
}

# Finds the term at fault: it comes after the line `first`, and ends on the line `last`. Fails where none is found.
find_term() {
  local pair list=() middle told line
  first=0 last=$(($(mark) - 1)) probe= own=
  (($(wc -c < "${parts[0]}") <= largest)) || return
  for pair in "${probes[@]}"; do
    probe=${pair%%|*} own=${pair##*|}
    [[ $own == "$fault" || $(fault_with "$last" "$probe") != "$fault" ]] || break
    probe=
  done
  [ -n "$probe" ] || return
  mapfile -t list < <(head -n "$last" "${parts[0]}" | grep -anE $'^[^%]*\\.[ \t\r]*(%.*)?$' | cut -d : -f 1)
  while ((${#list[@]} > 0)); do
    middle=$((${#list[@]} / 2)) line=${list[${#list[@]} / 2]}
    told=$(fault_with "$line" "$probe")
    if [ "$told" = "$fault" ]; then
      last=$line list=("${list[@]:0:middle}")
    elif [ "$told" = "$own" ]; then
      first=$line list=("${list[@]:middle + 1}")
    else
      list=("${list[@]:0:middle}" "${list[@]:middle + 1}")
    fi
  done
}

# Tells the term at fault: the line of the parameter or key that is, with the name that isn't known, or else its first line.
tell_term() {
  local key= place= unknown= at
  at=$(lines_of $'^[ \t]*[^% \t\r]' | head -n 1)
  if [[ $probe == '{application'* ]] && find_key; then
    at=$(lines_of "$(head_of "$key")" | head -n 2 | if [[ $fault == C7* ]]; then tail -n 1; else head -n 1; fi)
    case $fault in
      C5*) cause="$place${cause:+: $cause}" ;;
      *) cause="$place: rehearse help $code" ;;
    esac
  fi
  [[ $fault != C5* ]] || find_unknown "${at:-1}"
  find_place "${at:-1}"
  [[ $fault != C10* || $text != *'{profile,'* ]] || cause="the profile is 1 or 2, and its term is the first one"
  printf '%s:%s: "%s" is refused: %s%s%s\n' "$(name_of 0)" "$line" "$text" "$fault" "${unknown:+ $unknown}" "${cause:+ ($cause)}" >&2
}

# Tells the node that differs from the first one that takes part, and in what: where the answer changes if a parameter is skipped
# in all nodes, it is that one.
tell_mismatch() {
  local key=sync_nodes_timeout at first=0 last=$(($(mark) - 1)) next
  [ "$(fault_with "$last" "" "$(skipping "$key")")" != "$fault" ] || key=distributed
  at=$(lines_of "\\{[[:space:]]*node[[:space:]]*,[[:space:]]*'?${1//./\\.}'?[[:space:]]*," | head -n 1)
  first=$((${at:-1} - 1))
  next=$(lines_of $'^[ \t]*\\{[ \t]*(node|application)[ \t]*,' | sed -n 2p)
  [ -z "$next" ] || ((next - 1 < first + 1)) || last=$((next - 1))
  at=$(lines_of "$(head_of "$key")" | head -n 1)
  cause="$key isn't that of the first node that takes part"
  [ -n "$at" ] || cause="it has no $key, and the first node that takes part has"
  find_place "${at:-$((first + 1))}"
  printf '%s:%s: "%s" is refused: %s (%s)\n' "$(name_of 0)" "$line" "$text" "$fault" "$cause" >&2
}

# The numbers of the lines of the term that are as a pattern says.
lines_of() {
  sed -n "$((first + 1)),${last}p" "${parts[0]}" | grep -anE "$1" | cut -d : -f 1 | while read -r line; do echo $((first + line)); done
}

# Finds what is at fault in the term, in `key`, and where that is, in `place`: where it is skipped the term has no fault, and that of
# the probe after it is told. In the section `rehearse` nothing can be skipped: there the fault isn't before the last parameter at
# which the section can end.
find_key() {
  local name names=()
  for key in "${read_keys[@]}"; do
    [ -n "$(lines_of "$(head_of "$key")")" ] || continue
    [ "$(fault_with "$last" "$probe" "$(skipping "$key")")" != "$own" ] || break
    key=
  done
  [ -n "$key" ] || return
  place="in $key"
  [ "$key" = rehearse ] || return 0
  mapfile -t names < <(sed -n "$((first + 1)),${last}p" "${parts[0]}" | grep -aoE "$(head_of '(boot|platform)')" | tr -cd 'a-z\n')
  for name in "${names[@]}"; do
    [ "$(fault_with "$last" "$probe" "$(ending_at "$name")")" != "$own" ] || { key=$name && place="in $name or after it"; }
  done
}

# Finds the name that isn't known, from this line on: where a term of that name is there too, the term has no fault.
find_unknown() {
  local word words=()
  mapfile -t words < <(sed -n "$1,${last}p" "${parts[0]}" | grep -aoE "'[^']+'|[a-z][A-Za-z0-9_@]*" | awk '!met[$0]++' | head -n 50)
  for word in "${words[@]}"; do
    for unknown in "{node, $word, []}." "{application, $word, []}."; do
      [ "$(fault_with "$last" "$unknown $probe")" != "$own" ] || { unknown=$word && return; }
    done
  done
  unknown=
}

# The first line that isn't UTF-8, as the program tells lines; nothing where this machine can't tell it.
other_bytes() {
  local found
  found=$(cat -- "${parts[@]}" | LC_ALL=C.UTF-8 grep -naxvm 1 '.*' 2> /dev/null | head -n 1 | cut -d : -f 1 | tr -d '\0')
  [[ $found != [1-9]* ]] || echo " line $found"
}

# Cuts what causes a fault where it is long, and says what tells all of it.
shorten_cause() {
  ((${#cause} > 160)) || return 0
  cause=${cause:0:160}
  cause="${cause%; *}; ..: rehearse help $1"
}
