# shellcheck shell=bash
# Each command of the sessions here begins with this.

# network NAME [INPUT]: a program that adds 1 to each value of A, in the folder networks, and its input.
network() {
  mkdir -p networks
  echo "begin integer input channel A; integer output channel B;
  process add(integer in U; integer out W); begin repeat send wait(U) + 1 on W end; add(A, B) end" > "networks/$1.kahn"
  echo "A: ${2-1 2 3}" > "networks/$1.input"
}
