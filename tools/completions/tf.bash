# completion of tf for bash: source this file
_tf() {
  local word=${COMP_WORDS[COMP_CWORD]}
  if [[ $word == -* ]]; then
    COMPREPLY=($(compgen -W "--rows --cols --percent --stored --nodes --turns --capacity --lose --repeat --restart -o --print --strict --table --to --grey --colours --quality --strip --page --quiet --time --memory --stage --scale --stages --ranges --tile --inline --join --of --log --parts --resume --jobs --skip-done --part --list --engine --scheduler --facts --audit --scheduler-file --wait --task-seconds --no-browser --trace --trust --rounds --version --help" -- "$word"))
  elif [[ $COMP_CWORD == 1 ]]; then
    COMPREPLY=($(compgen -W "eval check plan run merge audit world frames graph hist tune answer table join facts play report" -- "$word"))
  else
    COMPREPLY=($(compgen -f -- "$word"))
  fi
}
complete -o filenames -F _tf tf
