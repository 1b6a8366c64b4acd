# Completion of kahn, its other programs and scripts in bash: options, channels and value arguments of the programs on the line, and
# programs. Where it has none, bash completes file names.

# _kahn_text FILE..: program texts in one line, without comments and commas.
_kahn_text() {
  cat -- /dev/null "$@" 2> /dev/null | LC_ALL=C tr -s '\r\n\t ,' ' ' | LC_ALL=C sed -E 's/\bcomment\b[^;]*;?//gI'
}

# _kahn_channels SORT FILE..: the channels of the programs: `input `, `output ` or all.
_kahn_channels() {
  _kahn_text "${@:2}" | LC_ALL=C grep -oiP "\b$1channel \K[^;]*"
}

# _kahn_values FILE..: the value arguments of processes, such as delay.N.
_kahn_values() {
  _kahn_text "$@" | LC_ALL=C grep -oiP '\bprocess \K\w+ ?\([^)]*' | LC_ALL=C sed -E 's/\b(integer|logical) (in|out) [^;]*//gI; s/\b(integer|logical)\b//gI' \
    | awk -F '[(; ]+' '{ for (at = 2; at <= NF; at++) if ($at != "") print $1 "." $at }'
}

# _kahn_takes OPTION WORD FILE..: sets names to what the option takes, and given to options of compgen. Fails if it takes no names.
_kahn_takes() {
  local sort=
  given=()
  case "$1 $2" in
    '--in '* | '--plain '* | '--out '*) [[ $2 != *,* ]] || given=(-P "${2%,*},") ;;
    '--at-end '* | '--set '*) given=(-S '=') ;;
  esac
  case "$1 $2" in
    '--set '*) names=$(_kahn_values "${@:3}"); return ;;
    '--watch '* | '--needs '* | '--plain '*,*) ;;
    '--out '*) [[ $2 != *,* ]] || sort='output ' ;;
    '--in '* | '--plain '* | '--wakes '* | '--at-end '*) sort='input ' ;;
    *) return 1 ;;
  esac
  names=$(_kahn_channels "$sort" "${@:3}")
}

_kahn() {
  local name=${1##*/} word=$2 before=$3 at options names given files=()
  COMPREPLY=()
  for at in "${!COMP_WORDS[@]}"; do
    if [ "$at" -ge "$COMP_CWORD" ]; then break; fi
    [[ ${COMP_WORDS[at]} != *.kahn ]] || files+=("${COMP_WORDS[at]/#\~\//$HOME/}")
    # after `--` come the words of a command
    if [[ $name${COMP_WORDS[at]} = kahn_build-- ]]; then
      name=${COMP_WORDS[at + 1]##*/}
      [ $((at + 1)) != "$COMP_CWORD" ] || name='a command'
    fi
  done
  files=("${files[@]//\\/}")
  case $name in
    kahn) options="--input --workers --quantum --bound --watch --help --version" ;;
    kahn_live) options="--quantum --step --watch --keep-going --strict --at-end --in --out --plain --help --version" ;;
    kahn_draw) options="--input --bound --help --version" ;;
    kahn_explain) options="--input --workers --quantum --bound --all --strict --trace --channels --check --needs --wakes --json --help --version" ;;
    kahn_test) options="--update --values --lax --bound --junit --help --version" ;;
    kahn_build) options="--set --help --version" ;;
    'a command') mapfile -t COMPREPLY < <(compgen -c -- "$word"); return ;;
    *) return ;;
  esac
  [ "$word" != = ] || word=
  [ "$before" != = ] || before=${COMP_WORDS[COMP_CWORD - 2]}
  if [[ $word == -* ]]; then
    mapfile -t COMPREPLY < <(compgen -W "$options" -- "$word")
  elif _kahn_takes "$before" "$word" "${files[@]}"; then
    mapfile -t COMPREPLY < <(compgen "${given[@]}" -W "$names" -- "${word##*,}")
    [[ $before = --watch ]] || compopt -o nospace 2> /dev/null
  elif [[ " $options " != *" $before "* && ($name = kahn_build || $name = kahn_test || ${#files[@]} = 0) ]]; then
    mapfile -t COMPREPLY < <(compgen -f -X '!*.kahn' -- "$word")
    [ ${#COMPREPLY[@]} = 0 ] || mapfile -t -O ${#COMPREPLY[@]} COMPREPLY < <(compgen -d -- "$word")
    compopt -o filenames 2> /dev/null
  fi
}
complete -o default -F _kahn kahn kahn_live kahn_draw kahn_explain kahn_test kahn_build
