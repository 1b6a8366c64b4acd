# shellcheck shell=bash
# Each command of the sessions here begins with this: kahn_live in pipes that stay open.
trap : PIPE

# begin WORD..: begins kahn_live with these words.
begin() {
  coproc kahn_live "$@" 2> errors
  live=$COPROC_PID
  exec 7>&"${COPROC[1]}"- 8<&"${COPROC[0]}"-
}

# ask COUNT LINE..: sends lines, and prints so many lines of output, which have to come before anything else is sent.
ask() {
  local line
  printf '%s\n' "${@:2}" >&7
  for ((; $1; )); do
    read -r -t 60 -u 8 line || echo "no line in time"
    echo "$line"
    set -- $(($1 - 1))
  done
}

# over: ends the input, and prints what comes then.
over() {
  local status=0
  exec 7>&-
  cat <&8
  wait "$live" || status=$?
  cat errors >&2
  return $status
}
