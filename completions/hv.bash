# Completion of hv for bash: its orders, its options, and sources.
_hv() {
  local word=${COMP_WORDS[COMP_CWORD]} order=${COMP_WORDS[1]:-}
  COMPREPLY=()
  if [ "$COMP_CWORD" = 1 ]; then
    mapfile -t COMPREPLY < <(compgen -W 'check show run plain' -- "$word")
  elif [ "${COMP_WORDS[COMP_CWORD - 1]}" = --steps ]; then
    return
  elif [ "${word:0:1}" = - ]; then
    case $order in
    run | plain) mapfile -t COMPREPLY < <(compgen -W '--steps --trace' -- "$word") ;;
    esac
  else
    mapfile -t COMPREPLY < <(compgen -f -X '!*.hv' -- "$word"; compgen -d -- "$word")
  fi
}
complete -F _hv hv
