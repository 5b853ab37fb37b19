# make help                          prints this list
# make run SCENARIO=FILE             runs a scenario, for example examples/one_silent_rmu.toml
# make picture SCENARIO=FILE > SVG   draws its run; with FRAMES="FIRST LAST" only these frames. After
#                                    -C give -s too (make -s -C ..), or make's own lines are in it
# make bridge SCENARIO=FILE          runs a bridge of two buses (examples/bridges)
# make build                         proves and builds the programs, unless they are up to date: the
#                                    libraries below them side by side, then each program
# make test                          the gate: every proof, mutant, test and program, and documents
# make library                       proves the calls for C and builds librobus.a and librobus.so in
#                                    crates/robus_c/out, unless they are up to date
# make bench                         builds the programs and measures them
# make bench-peers                   measures models of the bus in SystemC, ns-3 and SimPy beside the
#                                    proved program, if it is built, and checks that they are alike
# make examples                      runs each example and looks for the lines that its page names
# make tutorial                      runs the commands of docs/TUTORIAL.md and compares the output
# make site                          writes pages of all that is proved to site/
# make compare COUNT=1000 SEED=1     runs COUNT cases in the program and in a second model
# make install PREFIX=/usr/local     installs the programs that were built, manual pages, documents,
#                                    examples, the Python package and, if up to date, the library
# make install-library PREFIX=..     installs only the library, its header and a pkg-config file
# make install-python PREFIX=..      installs only the Python package

PREFIX ?= /usr/local
ROBUS = crates/robus/out/robus
PICTURE = crates/robus_picture/out/robus_picture
BRIDGE = crates/robus_bridge/out/robus_bridge
LIBRARY = crates/robus_c/out/librobus
AT = $(DESTDIR)$(PREFIX)
PACKAGES = $(AT)/lib/python3/dist-packages
COUNT = 1000
SEED = 1

.PHONY: help run picture bridge build library test bench bench-peers examples tutorial site compare install install-python install-library uninstall

help:
	@sed -n '/^#/!q; s/^# //p' Makefile

run:
	@test -n "$(SCENARIO)" || { echo "usage: make run SCENARIO=examples/one_silent_rmu.toml (or another of examples/)" >&2; exit 2; }
	@status=0; tools/run "$(SCENARIO)" || status=$$?; test $$status -le 1 || exit $$status

picture:
	@test -n "$(SCENARIO)" || { echo "usage: make picture SCENARIO=examples/one_silent_rmu.toml > run.svg (or another of examples/)" >&2; exit 2; }
	@tools/picture "$(SCENARIO)" $(FRAMES)

bridge:
	@test -n "$(SCENARIO)" || { echo "usage: make bridge SCENARIO=examples/bridges/carried_words.toml (or another of examples/bridges/)" >&2; exit 2; }
	@status=0; tools/bridge "$(SCENARIO)" || status=$$?; test $$status -le 1 || exit $$status

build:
	@tools/proved $(ROBUS) && tools/proved $(PICTURE) && tools/proved $(BRIDGE) || tools/build
	tools/proved $(ROBUS) || (cd crates/robus && rt run -- run < stdin > /dev/null)
	tools/proved $(PICTURE) || (cd crates/robus_picture && rt run < stdin > /dev/null)
	tools/proved $(BRIDGE) || (cd crates/robus_bridge && rt run -- run < stdin > /dev/null)

library:
	tools/proved $(LIBRARY).so || tools/library

test:
	.ci/run

bench: build
	cd crates/rb_bench && rt run -- closes 1000 > /dev/null
	tools/bench

bench-peers:
	bench/peers/check 3
	bench/peers/measure

examples: build
	tools/examples

tutorial: build
	tools/tutorial

site:
	tools/site

compare: build
	tools/compare_models $(COUNT) $(SEED)

install:
	@tools/proved $(ROBUS) && tools/proved $(PICTURE) && tools/proved $(BRIDGE) || { echo "make install: no proved programs are up to date: make build first" >&2; exit 2; }
	install -d "$(AT)/bin" "$(AT)/share/man/man1" "$(AT)/share/man/man5" "$(AT)/share/doc/robus"
	install -m 755 $(ROBUS) "$(AT)/bin/robus"
	install -m 755 $(PICTURE) "$(AT)/bin/robus_picture"
	install -m 755 $(BRIDGE) "$(AT)/bin/robus_bridge"
	tools/manual docs/robus.md robus 1 > "$(AT)/share/man/man1/robus.1"
	tools/manual docs/robus_picture.md robus_picture 1 > "$(AT)/share/man/man1/robus_picture.1"
	tools/manual docs/robus_bridge.md robus_bridge 1 > "$(AT)/share/man/man1/robus_bridge.1"
	tools/manual docs/SCENARIOS.md robus_scenario 5 "scenarios of a fault-tolerant broadcast bus" > "$(AT)/share/man/man5/robus_scenario.5"
	tools/manual docs/FORMATS.md robus_formats 5 "messages and logs of a fault-tolerant broadcast bus" > "$(AT)/share/man/man5/robus_formats.5"
	cp -R README.md CHANGELOG.md docs examples "$(AT)/share/doc/robus"
	$(MAKE) install-python
	@if tools/proved $(LIBRARY).so; then $(MAKE) install-library; else echo "make install: no library is up to date (make library): it is left out" >&2; fi

install-library:
	@tools/proved $(LIBRARY).so || { echo "make install-library: no library is up to date: make library first" >&2; exit 2; }
	install -d "$(AT)/include" "$(AT)/lib/pkgconfig"
	install -m 644 include/robus.h "$(AT)/include/robus.h"
	install -m 644 $(LIBRARY).a "$(AT)/lib/librobus.a"
	install -m 755 $(LIBRARY).so "$(AT)/lib/librobus.so"
	printf 'prefix=%s\nName: robus\nDescription: a fault-tolerant broadcast bus, as proved calls\nVersion: 1.0\nCflags: -I$${prefix}/include\nLibs: -L$${prefix}/lib -lrobus\n' "$(PREFIX)" > "$(AT)/lib/pkgconfig/robus.pc"

install-python:
	install -d "$(PACKAGES)/robus/second_model" "$(PACKAGES)/robus/page" "$(AT)/share/wireshark"
	install -m 644 python/robus/*.py python/robus/py.typed "$(PACKAGES)/robus"
	install -m 644 python/robus/second_model/*.py "$(PACKAGES)/robus/second_model"
	install -m 644 python/robus/page/view.* "$(PACKAGES)/robus/page"
	install -m 644 share/wireshark/robus.lua "$(AT)/share/wireshark"

uninstall:
	rm -f "$(AT)/bin/robus" "$(AT)/bin/robus_picture" "$(AT)/bin/robus_bridge" "$(AT)/share/man/man1/robus.1" "$(AT)/share/man/man1/robus_picture.1" "$(AT)/share/man/man1/robus_bridge.1" "$(AT)/share/man/man5/robus_scenario.5" "$(AT)/share/man/man5/robus_formats.5"
	rm -f "$(AT)/include/robus.h" "$(AT)/lib/librobus.a" "$(AT)/lib/librobus.so" "$(AT)/lib/pkgconfig/robus.pc"
	rm -f "$(AT)/share/wireshark/robus.lua"
	rm -rf "$(AT)/share/doc/robus" "$(PACKAGES)/robus"
