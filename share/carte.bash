# Completion of carte for bash. The words are those of docs/COMMANDS.md.
_carte() {
  local word=${COMP_WORDS[COMP_CWORD]} before=${COMP_WORDS[COMP_CWORD - 1]} at place=0 names
  COMPREPLY=()
  # bash parts --option=value at the sign
  [ "$before" != '=' ] || before=${COMP_WORDS[COMP_CWORD - 2]}
  [ "$word" != '=' ] || word=
  case $before in
    --scheduler) COMPREPLY=($(compgen -W "topological restarting suspending" -- "$word")) && return ;;
    --rebuilder) COMPREPLY=($(compgen -W "dirty verifying constructive deep" -- "$word")) && return ;;
    --workers) COMPREPLY=($(compgen -W "1 2 4 8" -- "$word")) && return ;;
    --kind) COMPREPLY=($(compgen -W "rules sheet" -- "$word")) && return ;;
  esac
  case $word in -*) COMPREPLY=($(compgen -W "--scheduler --rebuilder --workers --kind --list" -- "$word")) && return ;; esac
  for ((at = 1; at < COMP_CWORD; at++)); do
    case ${COMP_WORDS[at]} in
      --list) ;;
      --*) at=$((at + 1)) ;;
      *) place=$((place + 1)) ;;
    esac
  done
  case $place in
    0) COMPREPLY=($(compgen -W "build explain session clean generate" -- "$word")) ;;
    1 | 2) compopt -o filenames 2>/dev/null; local IFS=$'\n'; COMPREPLY=($(compgen -f -- "$word")) ;;
  esac
  return 0
}
complete -F _carte carte
