# bash completion for duvonka, made by tools/help-texts
_duvonka() {
  local words command=${COMP_WORDS[1]}
  COMPREPLY=()
  case "${COMP_WORDS[COMP_CWORD - 1]}" in
    --stream-fields|--dir|--http|--syslog|--workers) return ;;
  esac
  [[ $COMP_CWORD != 1 ]] || command=
  case "$command" in
    '')
      words="pipe load query serve trial --help --version"
      # a path is that of the launcher in a clone
      [[ $1 != */* ]] || words="$words --build --clean --unproved"
      ;;
    pipe) words="--stream-fields" ;;
    load) words="--dir --stream-fields" ;;
    query) words="--dir" ;;
    serve) words="--dir --http --syslog --workers" ;;
    trial) words="" ;;
    *) return ;;
  esac
  mapfile -t COMPREPLY < <(compgen -W "$words" -- "$2")
}
complete -o default -F _duvonka duvonka
