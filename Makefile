# The index of what one does here; each target is a command that works without make too.
#
# Without the Rattle toolchain:
#
#   make                    this text
#   make check              the limits of the house, rows, sessions and pages on the programs that are there (a minute)
#   make test [PART=name]   all tests of these programs, on all processors (a quarter of an hour), or a part of tests/run.py
#   make package            makes the Debian package
#   make pictures           draws the examples for docs/pictures, with Graphviz
#   make bench              times of the workloads (bench/README.md), on an idle machine
#   make install            installs the programs (PREFIX, DESTDIR)
#
# These prove, on all processors and in 8 GB:
#
#   make prove CRATE=name   one crate, with those that it stands on (minutes to an hour)
#   make mine               what was changed and the crates above it, and tries the programs (CONTRIBUTING.md)
#   make programs           the programs, and builds them (three quarters of an hour from nothing)
#   make page               the library of the page, and makes release/kahn.html
#   make release            the same, and makes a release of the page and of the programs that were built
#   make edits [CRATE=name] the must-fail edits that the gate doesn't try have to be refused (about a minute each)
#   make gate               everything from nothing, with all tests (three to four processor hours)
.PHONY: help check mine prove gate test programs release page package edits pictures bench install
RT = @command -v rt > /dev/null || { echo "make: the Rattle toolchain (rt) is not on the path" >&2; exit 5; }
help: ; @sed -n 's/^# \{0,1\}//p' Makefile
check: ; ./try
mine: ; ./try mine
prove:
	$(RT)
	$(if $(CRATE),,@echo "make: CRATE=name is wanted" >&2; exit 2)
	cd crates/$(CRATE) && rt check
gate: ; ./gate
test: ; $(if $(PART),python3 tests/run.py $(PART),./try programs)
programs: ; bash release/build.sh
release: page ; bash release/make.sh
page:
	$(RT)
	cd crates/kahn_web && rt check && bash ../../web/build.sh
package: ; bash release/deb.sh
edits: ; bash checks/edits.sh $(CRATE)
SVG = dot -Tsvg -Nfontname=sans-serif -Efontname=sans-serif
pictures:
	for it in examples/*.kahn; do ./kahn_draw $$it | $(SVG) > docs/pictures/$$(basename $$it .kahn).svg; done
	./kahn_draw examples/fibonacci.kahn --input /dev/null | $(SVG) > docs/pictures/fibonacci-run.svg
bench: ; python3 bench/measure.py
install: ; bash install.sh
