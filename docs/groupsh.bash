# Completion of groupsh for bash: `source` this file, or put it into ~/.local/share/bash-completion/completions as
# `groupsh`. ./test holds its options to those of --help.

_groupsh() {
  local word=${COMP_WORDS[COMP_CWORD]} at=$((COMP_CWORD - 1)) before=
  # Bash splits `--seed=7` at the sign.
  if [[ $word == "=" ]]; then
    word=
  elif ((at > 0)) && [[ ${COMP_WORDS[at]} == "=" ]]; then
    ((at--))
  fi
  ((at >= 0)) && before=${COMP_WORDS[at]}
  case $before in
    --budget | -c | --command) COMPREPLY=() ;;
    -o | --output) mapfile -t COMPREPLY < <(compgen -W "replies csv json box" -- "$word") ;;
    --seed) mapfile -t COMPREPLY < <(compgen -W "random" -- "$word") ;;
    --spill) mapfile -t COMPREPLY < <(compgen -d -- "$word") ;;
    *)
      case $word in
        -*) mapfile -t COMPREPLY < <(compgen -W "--table -t --command -c --output -o --ragged --budget --seed --spill --stats --check --help -h --version -V" -- "$word") ;;
        *) mapfile -t COMPREPLY < <(compgen -f -- "$word") ;;
      esac
      ;;
  esac
}

complete -o filenames -F _groupsh groupsh ./groupsh
