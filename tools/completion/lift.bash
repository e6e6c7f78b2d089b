# Completes the words and files of `lift`, and those of the tools, in bash:
#
#     source tools/completion/lift.bash

# The names of files of one kind, and of folders on the way to them.
_lift_files() {
  local IFS=$'\n'
  compopt -o filenames 2>/dev/null
  COMPREPLY=($(compgen -f -X "!*.$1" -- "$2") $(compgen -d -- "$2"))
}

_lift() {
  local word=${COMP_WORDS[COMP_CWORD]} command=${COMP_WORDS[1]} at=$COMP_CWORD
  # why.py has the words of lift behind its own name
  if [ "$at" = 1 ]; then
    COMPREPLY=($(compgen -W 'compile steps run cost eval stages run-stages demo' -- "$word"))
    return
  fi
  case $command:$at in
    demo:*) ;;
    *:2) _lift_files lift "$word" ;;
    eval:3 | run:4 | cost:4 | run-stages:4) _lift_files json "$word" ;;
    compile:3 | steps:3 | stages:3 | run:3 | cost:3 | run-stages:3) _lift_files txt "$word" ;;
    run:5) COMPREPLY=($(compgen -W '--trace' -- "$word")) ;;
    cost:5) COMPREPLY=($(compgen -W '--items' -- "$word")) ;;
  esac
}

_lift_tool() {
  local word=${COMP_WORDS[COMP_CWORD]} tool=${COMP_WORDS[0]##*/} at=$COMP_CWORD
  case $word:$tool in
    -*:places.py) COMPREPLY=($(compgen -W '--all --help' -- "$word")) ;;
    -*:moves.py) COMPREPLY=($(compgen -W '--at --copies --numbers --help' -- "$word")) ;;
    -*:picture.py) COMPREPLY=($(compgen -W '--from --kernel --help' -- "$word")) ;;
    -*:tune.py)
      COMPREPLY=($(compgen -W '--size --launch --k --local --groups --turns --help' -- "$word")) ;;
    -*) COMPREPLY=($(compgen -W '--help' -- "$word")) ;;
    *:nest.py) _lift_files cl "$word" ;;
    *:strategy.py)
      if [ "$at" = 1 ]; then _lift_files lift "$word"; else _lift_files py "$word"; fi ;;
    *:picture.py) case $at in 1) _lift_files lift "$word" ;; 2) _lift_files txt "$word" ;;
      *) _lift_files json "$word" ;; esac ;;
    *:moves.py | *:tune.py)
      if [ "$at" = 1 ]; then _lift_files lift "$word"; else _lift_files txt "$word"; fi ;;
  esac
}

complete -F _lift lift ./lift why.py tools/why.py
for _lift_name in places nest picture moves strategy tune; do
  complete -F _lift_tool "$_lift_name.py" "tools/$_lift_name.py"
done
unset _lift_name
