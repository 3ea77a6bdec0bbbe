# shellcheck shell=bash
# What ./wireline and the installed `wireline` share: a user's words are handed to the program. Sourced by bash.

say() { printf 'wireline: %s\n' "$*" >&2 2> /dev/null || true; }

asks_for_help() { # asks_for_help WORD..: help or the version is asked for
  local word
  case ${1-} in help | -h | --help | -V | --version) return 0 ;; esac
  for word in "$@"; do
    case $word in --) return 1 ;; -h | --help) return 0 ;; esac
  done
  return 1
}

# Help that is asked for is an answer: it goes to standard output with status 0. The program writes it to standard error with status 2. What the program
# calls an error stays one.
help_of() { # help_of PROGRAM WORD..
  local said status=0
  said=$("$@" 2>&1 < /dev/null) || status=$?
  if [ "$status" = 2 ] && [[ $said != error:* ]]; then
    printf '%s\n' "$said"
    exit 0
  fi
  printf '%s\n' "$said" >&2
  exit "$status"
}

# The parts of a sweep that are joined may be several files: the program reads them one after another.
join_files() { # join_files PROGRAM WORD..: becomes the program, over these files
  local program=$1 files=() others=() ended='' before='' word
  shift
  for word in "$@"; do
    if [ "$before" = -o ] || [ "$before" = --format ] || [[ -z $ended && $word = -?* && $word != -- ]]; then others+=("$word")
    elif [ -z "$ended" ] && [ "$word" = -- ]; then ended=yes
    else files+=("$word"); fi
    before=$word
  done
  if [ ${#files[@]} -gt 1 ]; then
    for word in "${files[@]}"; do [ -r "$word" ] || { say "can't read '$word'"; exit 3; }; done
    exec < <(cat -- "${files[@]}")
  elif [ ${#files[@]} = 1 ]; then others+=(-- "${files[0]}"); fi
  exec "$program" sweep "${others[@]}"
}

hand_over() { # hand_over PROGRAM WORD..: becomes the program, with the words that a person wants
  local program=$1 said=(--hint) words=() before='' ended='' word
  shift
  if asks_for_help "$@"; then help_of "$program" "$@"; fi
  if [ $# = 1 ] && [ "$1" != init ] && [ -t 0 ]; then say "reading from the terminal, up to Ctrl-D; to read a file: $(basename "$0") $1 FILE"; fi
  [ ! -t 2 ] || said+=(--progress)
  for word in "${@:2}"; do
    [ "$word" != -- ] || ended=yes
    # The program takes each of these once.
    if [ -z "$ended" ] && [[ " ${said[*]} " = *" $word "* && $word = --?* ]]; then continue; fi
    # Of a sweep a range may come without --vary in front of it.
    [[ $1 != sweep || $word != *=* || $word = -* || -e $word || $before = --vary || $before = -o ]] || words+=(--vary)
    words+=("$word") before=$word
  done
  if [ "${1-}" = sweep ] && [[ " ${words[*]} " = *' --join '* ]]; then join_files "$program" "${said[@]}" "${words[@]}"; fi
  # Somebody at a terminal reads tables, in colours if the terminal has them; programs and files get the text.
  if [ -t 1 ] && [[ ${1-} =~ ^(margin|respond|traffic|check|sweep)$ && " ${words[*]} " != *' --format'* && " ${words[*]} " != *' -o'* ]]; then
    if [ -n "${NO_COLOR-}" ] || [ "${TERM-dumb}" = dumb ]; then said+=(--format table); else said+=(--format coloured); fi
  fi
  case ${1-} in
    init | judge | run | margin | explain | respond | traffic | check | settings | sweep | trace | page | vcd | candump | records | format | merge | horizon)
      exec "$program" "$1" "${said[@]}" "${words[@]}"
      ;;
  esac
  exec "$program" "$@"
}
