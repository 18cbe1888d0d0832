# Completes the words of wasabi in bash: in ~/.bashrc, . /path/to/wasabi/tools/completion.bash

_wasabi() {
  local word=${COMP_WORDS[COMP_CWORD]} words=("${COMP_WORDS[@]:1:COMP_CWORD}")
  # bash cuts --hooks=begin into three words
  case $word in
    =) word='' words=("${COMP_WORDS[@]:1:COMP_CWORD-1}" '') ;;
    *) [ "$COMP_CWORD" -lt 3 ] || [ "${COMP_WORDS[COMP_CWORD - 1]}" != = ] || words=("${COMP_WORDS[@]:1:COMP_CWORD-2}" "$word") ;;
  esac
  mapfile -t COMPREPLY < <("${COMP_WORDS[0]}" --complete "${words[@]}" 2>/dev/null)
}

complete -o bashdefault -o default -F _wasabi wasabi
