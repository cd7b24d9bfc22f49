# Completes the words of the program in bash: `source completions/datalad.bash`. It offers the commands and options of
# the table (crates/dl_words/src/table.rt) that are built (crates/dl_words/src/built.rt); `checks/completions` compares
# them.

# The commands.
_datalad_commands="create save status log --help --version"

# The options that take a value, by their short and long names.
_datalad_with_value="-d --dataset -m --message -F --message-file"

# _datalad_options COMMAND: its options, by their short and long names
_datalad_options() {
  case $1 in
    create) ;;
    save) echo "-d --dataset -m --message -F --message-file --to-git" ;;
    status | log) echo "-d --dataset" ;;
  esac
}

# What the word at hand is, by the words between the command's and it: one of the `options` or an operand, the `value` of
# an option, or an operand behind `--`. Bash takes the equals sign behind a long option for a word of its own.
_datalad_place() {
  local word place=options
  for word in "${COMP_WORDS[@]:2:COMP_CWORD-2}"; do
    case $place,$word in
      ended,* | value,=) ;;
      value,*) place=options ;;
      options,--) place=ended ;;
      *) [[ " $_datalad_with_value " != *" $word "* ]] || place=value ;;
    esac
  done
  echo "$place"
}

_datalad() {
  local word=${COMP_WORDS[COMP_CWORD]} command=${COMP_WORDS[1]}
  COMPREPLY=()
  if [ "$COMP_CWORD" = 1 ]; then
    mapfile -t COMPREPLY < <(compgen -W "$_datalad_commands" -- "$word")
    return
  fi
  case $(_datalad_place),$word in
    options,-*) mapfile -t COMPREPLY < <(compgen -W "$(_datalad_options "$command")" -- "$word") ;;
    options,* | ended,*)
      [ "$command" = create ] || return 0
      compopt -o filenames 2>/dev/null
      mapfile -t COMPREPLY < <(compgen -d -- "$word")
      ;;
  esac
}

complete -F _datalad datalad
