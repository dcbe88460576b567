# Completion of lid for bash: commands, their options, files.

_lid() {
  local word=${COMP_WORDS[COMP_CWORD]} previous=${COMP_WORDS[COMP_CWORD - 1]} command='' options='' at
  local commands='check strict place clock rate verify slack size wave unwave walk free emit gen'
  for ((at = 1; at < COMP_CWORD; at++)); do
    case ${COMP_WORDS[at]} in
      -*) ;;
      *) [[ ${COMP_WORDS[at - 1]} == --* ]] || { command=${COMP_WORDS[at]} && break; } ;;
    esac
  done
  case $command in
    '') options='--help --version' ;;
    check | strict) options='--root' ;;
    place) options='--wires --reach --root' ;;
    clock) options='--root --stations --stalls --workers --trace' ;;
    rate | verify | slack | size | emit) options='--root --stations' ;;
    wave) options='--trace --root --stations' ;;
    walk) options='--schedule --root --stations' ;;
    free) options='--workers --rounds --tally --root --stations' ;;
    gen) options='--shells --run' ;;
  esac
  if [[ $word == -* ]]; then
    mapfile -t COMPREPLY < <(compgen -W "$options" -- "$word")
  elif [[ $previous == --@(root|reach|workers|rounds|trace|shells|run) ]]; then
    COMPREPLY=()
  elif [[ -z $command ]]; then
    mapfile -t COMPREPLY < <(compgen -W "$commands help" -- "$word")
  elif [[ $command == help ]]; then
    mapfile -t COMPREPLY < <(compgen -W "$commands" -- "$word")
  else
    compopt -o filenames
    mapfile -t COMPREPLY < <(compgen -f -- "$word")
  fi
}

complete -F _lid lid
