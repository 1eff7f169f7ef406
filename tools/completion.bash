# Completes the words of qpzone for bash: commands, their options, the values of --style, and files.
_qpzone() {
  local word=${COMP_WORDS[COMP_CWORD]} before=${COMP_WORDS[COMP_CWORD - 1]} words=
  case $before in
  --style)
    words='full short'
    [[ ${COMP_WORDS[1]} != diff ]] || words='script nsupdate'
    ;;
  --serial) words='keep ignore' ;;
  --origin | --chunks | --workers | --names | --turns | --seed) return ;;
  *)
    if ((COMP_CWORD == 1)); then
      words='run feed zones check size dump diff live make --help --version'
    elif [[ $word == -* ]]; then
      case ${COMP_WORDS[1]} in
      run | check | live) words='--origin --chunks' ;;
      feed) words='--origin --workers --chunks' ;;
      size) words='--origin' ;;
      dump) words='--origin --style --chunks' ;;
      zones) words='--chunks' ;;
      diff) words='--origin --style --serial' ;;
      make) words='--seed --names --turns --workers --chunks' ;;
      esac
    else
      mapfile -t COMPREPLY < <(compgen -f -- "$word")
      return
    fi
    ;;
  esac
  mapfile -t COMPREPLY < <(compgen -W "$words" -- "$word")
}
complete -o filenames -F _qpzone qpzone
