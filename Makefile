# `make` alone says what there is.
.DEFAULT_GOAL := help
.PHONY: help run demo build build-tests check fmt test gate check-fast check-programs tools-check wrong-bodies bench bench-instructions station soak wrong-rules serve-check serve-hostile hub-hostile network-recipes unit-recipes restart refuse-memory pictures package package-check release release-long maps trusted manual install

PREFIX ?= /usr/local
DESTDIR ?=
VERSION = $(shell ci/version)
# where Debian keeps Python packages, below the prefix
PYTHON_LIB = $(PREFIX)/lib/python3/dist-packages
DOC = $(PREFIX)/share/doc/dmr_trunk
MAN = $(PREFIX)/share/man
# the folder in which bash-completion looks for the words of a command
COMPLETIONS = $(PREFIX)/share/bash-completion/completions
# the folder of Debian's Wireshark for dissectors in Lua, if the prefix is /usr (`tshark -G folders`)
WIRESHARK_PLUGINS = $(PREFIX)/lib/$(shell uname -m)-linux-gnu/wireshark/plugins

help: ## this list
	@sed -n 's/^\([a-z][a-z-]*\):[^#]*## \(.*\)/\1@\2/p' $(MAKEFILE_LIST) | awk -F@ '{ printf "make %-15s %s\n", $$1, $$2 }'
	@echo
	@echo "tools/siteview       a live picture of a served site"
	@echo "tools/timeline       an SVG of a replay"
	@echo "tools/callbook       prints the calls that a controller recorded"
	@echo "tools/report         says how busy a site was, as a page, text and CSV"
	@echo "tools/archive        keeps what a controller recorded, in a file for each month"
	@echo "tools/carriers       plays carriers and radios against a served site"
	@echo "tools/conform        judges the link client of a base station by the table of docs/LINK.md"
	@echo "tools/check          checks a site file: its faults and its risks"
	@echo "tools/restart        restarts a controller at the end of a term, and says what was lost"
	@echo "tools/hub            holds the console of a controller, and serves it to many"
	@echo "tools/console        the console, through the hub"
	@echo "trials/serve-hostile plays carriers and strangers that behave badly"
	@echo "trials/hub-hostile   attacks a hub, and measures an operator meanwhile"
	@echo "trials/long-replay   how long a long replay takes"
	@echo "trials/watch-hour    whether a site's observers delay its carriers"
	@echo "trials/flood-cost    whether floods delay the other carriers of a site"
	@echo "trials/records-cost  what records cost the carriers of a site"
	@echo "trials/restart       kills a controller that keeps records, and starts it again"
	@echo "trials/recording     records a served site, replays it, and compares what carriers received"
	@echo "trials/air           has dsdccx receive what the kit for base stations transmits"
	@echo "trials/air-recording reads a recording of a base station by that kit"
	@echo "trials/refuse-memory refuses each allocation of the programs in turn"
	@echo "trials/incidents     plays incidents of a site, and prints what an operator learns of each"
	@echo "trials/network-recipes tries firewall and tunnels, in network namespaces"
	@echo "trials/unit-recipes  tries units and drop-ins, with systemd in a container"
	@echo "trials/page-pictures takes the pictures of the hub's page"
	@echo "each says more with --help, or in its first lines; docs/OPERATING.md has those for operators"

run: ## serves a site for some seconds, plays its carriers and radios, and prints what came of it; without the proof (two minutes)
	@ci/run-site

demo: ## builds the program without its proofs and replays one registration (two minutes)
	@ci/check-toolchain
	@cd crates/dmr_trunk && rt try -- --site data/site.toml --script data/registration.txt

build: ## the proved programs that users run, build/dmr_trunk and build/dmr_decode: an hour or more, or nothing after a gate over the same sources
	@ci/check-toolchain
	@ci/build dmr_trunk dmr_decode

build-tests: ## the proved program that trials and benches need, build/test_program: some minutes after make build
	@ci/build test_program

check: ## proves one crate over what earlier runs kept: make check CRATE=dmr_pool; all crates without CRATE
ifdef CRATE
	cd crates/$(CRATE) && rt check
else
	rt all check
endif

fmt: ## lays out the files of one crate, CRATE=dmr_pool, or of all
	for crate in $(if $(CRATE),crates/$(CRATE),crates/*); do (cd $$crate && rt fmt) || exit; done

test: ## everything: check-fast, the prover's gate (docs/GATE.md), check-programs; the last line counts all of it
	@ci/check all

check-fast: ## tables, maps, definitions, edits, documents, prose and Python tests: one and a half to three minutes, no proof
	@ci/check fast

gate: ## the prover's gate alone: every proof, the must-fail edits, the tests and each program's stored run
	@ci/gate

check-programs: ## tools, documents, a soak and serving, over the programs that were built: five minutes
	@ci/check programs

wrong-bodies: ## every wrong body that must be refused, those outside the gate too: of CRATE=name, of the k-th of n parts with PART=k/n, or all
	@ci/wrong-bodies $(if $(PART),--part $(PART)) $(CRATE)

bench: build/dmr_trunk build/test_program ## times of served polls, and of the proved coder, engine and replay, beside those in C, in one run; and all words with three flips (bench/README.md)
	@date -u +%Y-%m-%d
	@sed -n 's/^model name[^:]*: *//p' /proc/cpuinfo | uniq -c
	@build/test_program --flips
	@bench/compare

bench-instructions: build/dmr_trunk build/test_program ## instructions of a served poll, of an event and of each function, ours beside C, counted by valgrind: figures that no other work on the machine changes
	@bench/instructions

soak: build/dmr_trunk ## a million random inputs through the proved program, in both versions of the link, compared with the site in C of reference/
	@reference/soak --counts

wrong-rules: build/dmr_trunk ## wrong rules planted in the site in C of reference/: a soak and the worked cases have to find each (a minute or two)
	@reference/wrong-rules

station: ## the kit in C for base stations: builds build/example and build/hearing, tests the headers, and prints how many weak bursts they read (a minute or two)
	@mkdir -p build
	cc -std=c99 -O2 -Wall -Wextra -Werror -pedantic -o build/example station/example.c
	cc -std=c99 -O3 -Wall -Wextra -Werror -pedantic -o build/hearing station/hearing.c -lm
	PYTHONPATH=python python3 -m unittest discover -s python -p 'test_station*.py'
	build/hearing $(if $(wildcard build/dmr_decode),-d build/dmr_decode)

build/dmr_trunk build/dmr_decode:
	@echo "no $@: run 'make build' first"; exit 2

build/test_program:
	@echo "no $@: run 'make build-tests' first"; exit 2

serve-check: build/dmr_trunk ## the proved program serves sixteen carriers on loopback for half a minute, in each version of the link; what comes back is checked. FAULTS=1: ten minutes of trouble
ifdef FAULTS
	tools/carriers --site sites/sixteen_carriers.toml --program build/dmr_trunk --faults --seconds 600
else
	for version in 2 1; do tools/carriers --site sites/sixteen_carriers.toml --program build/dmr_trunk --link-version $$version --seconds 30 --polls 10000 || exit; done
endif

serve-hostile: build/dmr_trunk ## the proved program served to carriers and strangers that behave badly (some minutes)
	trials/serve-hostile build/dmr_trunk

hub-hostile: build/dmr_trunk ## a hub over the proved program, attacked in a dozen ways, with an operator who is measured (a minute; some attacks as root alone)
	trials/hub-hostile build/dmr_trunk

network-recipes: build/dmr_trunk ## firewall, tunnels and units of deploy/ in network namespaces, with the proved program (a minute; as root, with nftables, wireguard-tools, stunnel4, apparmor)
	trials/network-recipes build/dmr_trunk

unit-recipes: package ## units and drop-ins of the package with systemd as process 1 of a container (five minutes; as root, with debootstrap and a network)
	trials/unit-recipes build/dmr-trunk_$(VERSION)_*.deb

restart: build/dmr_trunk ## the proved program killed and started again over its file of records, a hundred times; and records that cannot be written for a while (five minutes)
	trials/restart build/dmr_trunk

refuse-memory: build/dmr_trunk build/test_program ## each allocation of two replays, of each call and of a served term refused in turn, in the proved programs (a minute)
	trials/refuse-memory

tools-check: build/dmr_trunk build/dmr_decode ## the tests of the tools, over the proved programs (a minute)
	PYTHONPATH=python TEMZAAR_PROGRAMS=build python3 -m unittest discover -s python

pictures: build/dmr_trunk build/dmr_decode ## draws the pictures of the example scripts in docs/pictures again
	for name in queued_call lost_carrier operator; do tools/timeline --site sites/two_carriers.toml --script examples/scripts/$$name.txt --program build/dmr_trunk --out docs/pictures/$$name.svg || exit; done

trusted: ## lists the definitions that a reader has to believe, in docs/TRUSTED.md
	ci/trusted-definitions --write

maps: ## draws the maps of the crates and of a connection's states again, in docs/pictures
	ci/draw-map

manual: ## writes the manual pages below build/man, to be read with man -l build/man/man8/dmr_trunk.8
	ci/write-manual build/man

package: build/dmr_trunk build/dmr_decode ## a Debian package of the proved programs, at build/dmr-trunk_VERSION_ARCH.deb
	ci/package $(VERSION)

package-check: package ## installs the package in a clean root and serves a site there (as root; wants debootstrap and a network)
	ci/check-package build/dmr-trunk_$(VERSION)_*.deb

release: ## a release of what is committed, at release/: proved and checked in a fresh clone, with the record (docs/RELEASING.md; some 90 minutes on four good processors)
	@ci/release

release-long: ## the long steps for the release at release/, for which it does not wait: wrong bodies outside the gate, hours of serving
	@ci/release --long

install: build/dmr_trunk build/dmr_decode ## the programs, tools, headers for base stations, manual pages, units, dissector, examples and documents [PREFIX=/usr/local] [DESTDIR=]
	install -D -m 755 build/dmr_trunk $(DESTDIR)$(PREFIX)/bin/dmr_trunk
	install -D -m 755 build/dmr_decode $(DESTDIR)$(PREFIX)/bin/dmr_decode
	install -d $(DESTDIR)$(PREFIX)/lib/systemd/system $(DESTDIR)$(DOC)/examples/scripts $(DESTDIR)$(DOC)/examples/expected
	install -d $(DESTDIR)$(PYTHON_LIB)/temzaar/cli $(DESTDIR)$(PYTHON_LIB)/temzaar/hub/page
	install -m 644 python/temzaar/*.py $(DESTDIR)$(PYTHON_LIB)/temzaar
	ci/version >$(DESTDIR)$(PYTHON_LIB)/temzaar/VERSION && chmod 644 $(DESTDIR)$(PYTHON_LIB)/temzaar/VERSION
	install -m 644 python/temzaar/cli/*.py $(DESTDIR)$(PYTHON_LIB)/temzaar/cli
	install -m 644 python/temzaar/hub/*.py $(DESTDIR)$(PYTHON_LIB)/temzaar/hub
	install -m 644 python/temzaar/hub/page/* $(DESTDIR)$(PYTHON_LIB)/temzaar/hub/page
	for tool in siteview timeline callbook report archive carriers conform check restart hub console; do sed -e "s|@TOOL@|$$tool|" -e 's|@PYTHON_LIB@|$(PYTHON_LIB)|' python/launcher.in >$(DESTDIR)$(PREFIX)/bin/dmr_$$tool && chmod 755 $(DESTDIR)$(PREFIX)/bin/dmr_$$tool || exit; done
	python3 ci/write-manual --prefix $(PREFIX) $(DESTDIR)$(MAN)
	install -d $(DESTDIR)$(PREFIX)/include/dmr_trunk $(DESTDIR)$(DOC)/examples/station
	install -m 644 station/*.h $(DESTDIR)$(PREFIX)/include/dmr_trunk
	install -m 644 station/README.md station/*.c station/*.py $(DESTDIR)$(DOC)/examples/station
	install -D -m 644 deploy/wireshark/dmr_link.lua $(DESTDIR)$(WIRESHARK_PLUGINS)/dmr_link.lua
	ln -sf ../man8/dmr_trunk.8 $(DESTDIR)$(MAN)/man1/dmr_trunk.1
	install -d $(DESTDIR)$(COMPLETIONS)
	python3 ci/write-manual --completion >$(DESTDIR)$(COMPLETIONS)/dmr_trunk && chmod 644 $(DESTDIR)$(COMPLETIONS)/dmr_trunk
	for command in decode siteview timeline callbook report archive carriers conform check restart hub console; do ln -sf dmr_trunk $(DESTDIR)$(COMPLETIONS)/dmr_$$command || exit; done
	for unit in dmr_trunk dmr_hub dmr_trunk@ dmr_hub@; do sed 's|@PREFIX@|$(PREFIX)|' deploy/$$unit.service >$(DESTDIR)$(PREFIX)/lib/systemd/system/$$unit.service || exit; done
	sed 's|@PREFIX@|$(PREFIX)|' deploy/dmr_archive.service >$(DESTDIR)$(PREFIX)/lib/systemd/system/dmr_archive.service
	install -m 644 deploy/dmr_archive.timer $(DESTDIR)$(PREFIX)/lib/systemd/system/dmr_archive.timer
	ci/install-pages $(DESTDIR)$(DOC)
	install -m 644 sites/*.toml sites/names.csv deploy/hub.toml deploy/Containerfile $(DESTDIR)$(DOC)/examples
	for kind in nftables wireguard stunnel systemd apparmor prometheus grafana; do install -d $(DESTDIR)$(DOC)/examples/$$kind && install -m 644 deploy/$$kind/* $(DESTDIR)$(DOC)/examples/$$kind || exit; done
	install -m 644 examples/scripts/*.txt $(DESTDIR)$(DOC)/examples/scripts
	install -m 644 examples/expected/*.txt $(DESTDIR)$(DOC)/examples/expected
