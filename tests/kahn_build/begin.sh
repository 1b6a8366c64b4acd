# shellcheck shell=bash
# Each command of the sessions here begins with this: a program with filters, and their files.
library=examples/library
files=(use.kahn $library/{debounce,median,go-back-n}.kahn)
