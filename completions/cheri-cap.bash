# Completion of cheri-cap's arguments for bash. tests/install compares it with the program's help.

_cheri_cap() {
  local word=${COMP_WORDS[COMP_CWORD]} before=${COMP_WORDS[COMP_CWORD - 1]} command=${COMP_WORDS[1]} options='-h --help'
  COMPREPLY=()
  if ((COMP_CWORD == 1)); then
    mapfile -t COMPREPLY < <(compgen -W 'show round run plan map replay decode annotate explain help -h --help -V --version' -- "$word")
    return
  fi
  case $command in
    run) options+=' --slots --stats' ;;
    plan) options+=' --slots --align --stats' ;;
    map) options+=' --slots --align --svg' ;;
    replay) options+=' --format --align --realloc --sweep --min --pool --strict --summary --each --sizes --svg --script' ;;
    decode) options+=' --format --bytes --elf --skip --count --at --holds --perms --unsealed --tags' ;;
    show) options+=' --line --format' ;;
    explain) options+=' --svg --length --base' ;;
    annotate) ;;
    help)
      ((COMP_CWORD > 2)) || mapfile -t COMPREPLY < <(compgen -W 'show round run plan map replay decode annotate explain' -- "$word")
      return
      ;;
    round) options+=' --base --list' ;;
    *) return ;;
  esac
  case $before in
    --slots | --length | --base | --skip | --count | --at | --holds | --min | --pool | --each) ;;
    --sweep)
      compopt -o nospace 2>/dev/null
      mapfile -t COMPREPLY < <(compgen -W 'none never trace 25% 25%:live 25%:high bytes: frees:' -- "$word")
      ;;
    --perms)
      # names that are joined by a plus sign, of which the last one is completed
      compopt -o nospace 2>/dev/null
      mapfile -t COMPREPLY < <(compgen -P "${word%"${word##*+}"}" -W 'GLOBAL EXECUTE LOAD STORE LOAD_CAP STORE_CAP STORE_LOCAL_CAP SEAL CINVOKE UNSEAL SYSTEM_REGS SET_CID USER0 USER1 USER2 USER3' -- "${word##*+}")
      ;;
    --realloc) mapfile -t COMPREPLY < <(compgen -W 'move keep' -- "$word") ;;
    --summary) mapfile -t COMPREPLY < <(compgen -W 'text csv json' -- "$word") ;;
    --format)
      if [[ $command == replay ]]; then
        mapfile -t COMPREPLY < <(compgen -W 'own mtrace heaptrack ltrace' -- "$word")
      else
        mapfile -t COMPREPLY < <(compgen -W 'columns text fixed csv json' -- "$word")
      fi
      ;;
    --list | --tags)
      compopt -o filenames 2>/dev/null
      mapfile -t COMPREPLY < <(compgen -f -- "$word")
      ;;
    --bytes) mapfile -t COMPREPLY < <(compgen -W 'little big' -- "$word") ;;
    --align) mapfile -t COMPREPLY < <(compgen -W '1 16' -- "$word") ;;
    *)
      if [[ $word == -* ]]; then
        mapfile -t COMPREPLY < <(compgen -W "$options" -- "$word")
      elif [[ $command != show && $command != round && $command != explain ]]; then
        compopt -o filenames 2>/dev/null
        mapfile -t COMPREPLY < <(compgen -f -- "$word")
      fi
      ;;
  esac
}

complete -F _cheri_cap cheri-cap
