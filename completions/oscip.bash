# Completes the words of oscip in bash: its commands, their options, and files.
_oscip() {
  local word=${COMP_WORDS[COMP_CWORD]} options=""
  local commands="cut check crossings net why rules cut-net check-net why-net modules reach reach-net dot dot-net def refs symbol symbols index unresolved faults"
  if ((COMP_CWORD == 1)); then
    mapfile -t COMPREPLY < <(compgen -W "$commands help --help --version" -- "$word")
    return
  fi
  case ${COMP_WORDS[COMP_CWORD - 1]} in
    --workers | --package | --root | --symbol | --exclude) return ;;
    help)
      ((COMP_CWORD == 2)) && mapfile -t COMPREPLY < <(compgen -W "$commands" -- "$word")
      return
      ;;
  esac
  case ${COMP_WORDS[1]} in
    cut) options="--workers --prices --exclude --editor --skip-faults" ;;
    check) options="--prices --exclude --editor --skip-faults" ;;
    crossings) options="--exclude --editor --skip-faults" ;;
    net) options="--exclude --editor --skip-faults" ;;
    why) options="--exclude --editor --skip-faults" ;;
    rules) options="--exclude --editor --skip-faults" ;;
    cut-net) options="--workers --prices" ;;
    check-net) options="--prices" ;;
    why-net) options="" ;;
    modules) options="--exclude --editor --skip-faults" ;;
    reach) options="--back --exclude --editor --skip-faults" ;;
    reach-net) options="--back" ;;
    dot) options="--flow --prices --exclude --editor --skip-faults" ;;
    dot-net) options="--flow --prices" ;;
    def) options="--symbol --editor" ;;
    refs) options="--symbol --editor" ;;
    symbol) options="--editor" ;;
    symbols) options="--editor" ;;
    index) options="--hex --package --root --workers --atomic --exclude --editor --skip-faults" ;;
    unresolved) options="--exclude --editor --skip-faults" ;;
    faults) options="--exclude --editor" ;;
  esac
  if [[ $word == -* ]]; then
    mapfile -t COMPREPLY < <(compgen -W "$options --help" -- "$word")
  else
    mapfile -t COMPREPLY < <(compgen -f -- "$word")
  fi
}
complete -o filenames -F _oscip oscip
