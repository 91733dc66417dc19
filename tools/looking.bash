# Runs code that is not proved, if the program is not built from the present sources. Sourced by ./cheri-cap, after
# tools/building.bash.
#
# `rt try` compiles the program, with checks, from the sources alone, and runs it in a separate directory, so it must be given the
# files that the command line names. It reads standard input until its end, or until two seconds without input; the output
# appears when the program has ended. It keeps no file, so a second run takes as long as the first.

# the names that `rt try` uses for its own files
readonly TAKEN=' program stdin stdout stderr '

# Sets `words` to the arguments, and `files` to the options that hand over the files that they name.
hand_over() {
  local word name
  for word in "$@"; do
    if [[ -f $word ]]; then
      name=${word##*/}
      [[ $word == /* || $word == *..* || $word == *=* || $TAKEN == *" ${word%%/*} "* ]] || name=$word
      [[ $name != *=* && $TAKEN != *" $name "* ]] || name=input-$((${#files[@]} / 2))
      files+=(--data "$name=$(realpath -- "$word")")
      word=$name
    fi
    words+=("$word")
  done
}

# Runs the program on the arguments, and exits with its status, or with 125 if it cannot be compiled.
look() {
  local said status=0 words=() files=() line
  hand_over "$@"
  say 'nothing is proved of this output, which appears in about a minute; without --look, the program is proved and then runs'
  { said=$(cd -- "$top/crates/cheri_cap" && rt try "${files[@]}" -- "${words[@]}" 2>&1 >&3 3>&-) || status=$?; } 3>&1
  line=${said##*$'\n'}
  if [[ $line =~ ^run=ended\ status=([0-9]+)\ .*proved=no$ ]]; then
    # the lines of rt try on a run that ended follow those of the program
    said=${said%"$line"} said=${said%"checked: ended status=${BASH_REMATCH[1]}"$'\n'}
    printf '%s' "$said" >&2
    exit "${BASH_REMATCH[1]}"
  fi
  printf '%s\n' "$said" >&2
  [[ $line != run=none* && $status != 0 && $status != 2 ]] || stop 'the program could not be compiled, so nothing was run'
  exit "$status"
}
