# Completion of `msb` for bash: source tools/launcher/msb.bash
# Made by tools/make_pages.py from tools/launcher/words.py.

_msb() {
  local word=${COMP_WORDS[COMP_CWORD]} before=${COMP_WORDS[COMP_CWORD-1]} action= options= number
  for ((number = 1; number < COMP_CWORD; number++)); do
    case ${COMP_WORDS[number]} in
      build|check|eval|targets|trial) action=${COMP_WORDS[number]}; break ;;
    esac
  done
  case $before in
    --show) COMPREPLY=($(compgen -W 'low' -- "$word")); return ;;
    --nodes) COMPREPLY=($(compgen -W '1 2 4 8 16 32 64' -- "$word")); return ;;
    --target|--property|--size) return ;;
  esac
  case $action in
    '') COMPREPLY=($(compgen -W 'build check eval targets trial --quiet --time --unproved --help' -- "$word")); return ;;
    build) options='--target --property --nodes --clean --show' ;;
    check) options='--target --property --clean' ;;
    eval) options='--property' ;;
    targets) options='--property' ;;
    trial) options='--size --nodes' ;;
  esac
  if [[ $word == -* ]]; then
    COMPREPLY=($(compgen -W "$options" -- "$word"))
  elif [[ $action != trial ]]; then
    compopt -o filenames
    COMPREPLY=($(compgen -f -- "$word"))
  fi
}
complete -F _msb msb
