# Completion of the monitor's words for Bash: a command, the options that it still needs, and files.

_monitor() {
  local current=${COMP_WORDS[COMP_CWORD]} before=${COMP_WORDS[COMP_CWORD-1]}
  COMPREPLY=()
  if [ "$COMP_CWORD" -eq 1 ]; then
    mapfile -t COMPREPLY < <(compgen -W "run check demo" -- "$current")
    return
  fi

  # In `--sig=F` the `=` is a word of its own.
  [ "$current" = "=" ] && current=""
  [ "$before" = "=" ] && before=${COMP_WORDS[COMP_CWORD-2]}
  case $before in
    --sig | --policy | --log | --changes)
      compopt -o filenames 2>/dev/null
      mapfile -t COMPREPLY < <(compgen -f -- "$current")
      return ;;
    --strategy | --threads)
      return ;;
  esac

  local options option left=""
  case ${COMP_WORDS[1]} in
    run) options="--sig --policy --log --strategy --changes --threads" ;;
    check) options="--sig --policy" ;;
    *) return ;;
  esac
  for option in $options; do
    [[ " ${COMP_WORDS[*]:2:COMP_CWORD-2} " == *" $option "* ]] || left+=" $option"
  done
  mapfile -t COMPREPLY < <(compgen -W "$left" -- "$current")
}

complete -F _monitor monitor ./monitor
