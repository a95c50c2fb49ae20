# Completion for bash: the first word, and then names of files. Hashes are not completed.
_amstore() {
  local word=${COMP_WORDS[COMP_CWORD]}
  COMPREPLY=()
  case $COMP_CWORD,${COMP_WORDS[1]} in
    1,*) mapfile -t COMPREPLY < <(compgen -W 'run show check normalize history' -- "$word") ;;
    2,show | 2,check | 2,history | [23],normalize) mapfile -t COMPREPLY < <(compgen -f -- "$word") ;;
  esac
}
complete -o filenames -F _amstore amstore
