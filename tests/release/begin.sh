# shellcheck shell=bash
# Each command of the sessions here begins with this.
top=$TOP
source "$top/release/program.sh"
source "$top/web/page.sh"
PATH="$PATH:/usr/sbin:/sbin"

# bare WORD..: what the words print in an environment with little more than a path.
bare() {
  env -i PATH=/usr/bin:/bin HOME="$home" ADDRESS="$TOP" "$@" 2>&1
}
home=$PWD/home
mkdir -p "$home"

# in_root WORD..: dpkg on an empty root.
in_root() {
  dpkg --root="$PWD/root" --force-not-root --force-depends --log="$PWD/log" "$@" > said 2>&1 || { tail -n 3 said; return 1; }
}

# manual NAME SECTION PART: how many of its name, this part and no warning `man SECTION NAME` shows.
manual() {
  if command -v man > /dev/null; then
    LC_ALL=C MANPATH="$PWD/root/usr/share/man" MANWIDTH=80 man --warnings "$2" "$1" 2>&1 | grep -c "^NAME\|^ *$1 - \|^$3\|: warning:"
  else
    zcat "root/usr/share/man/man$2/$1.$2.gz" | grep -c "^.SH NAME\|^$1 \|^.SH $3"
  fi
}

# completed NAME WORD: what bash makes of a word after the name, by the function that the file of that name gives it.
completed() {
  bash -c 'source "$1/$2"; complete=$(complete -p "$2"); [[ $complete =~ \ -F\ ([^ ]+) ]] && "${BASH_REMATCH[1]}" "$2" "$3" "$2"
    echo "${COMPREPLY[@]}"' bash "$PWD/root/usr/share/bash-completion/completions" "$@"
}
