# The commands of the repository. `rt` is the toolchain's command.

.PHONY: all desk demo test quick try cases gate-times edits docs picture contracts peers bench faults soak types relays-test year door-test tools-test several hosts lost cuts moving install deb release pages package-test machines clean

all: desk

# The proved programs, at build/desk, build/desk-audit and build/desk-cut.
desk:
	bash scripts/build.sh

# The programs without any proof, at build/desk-unproved, build/desk-audit-unproved and build/desk-cut-unproved, in some five minutes: for trying a change out.
try:
	bash scripts/try.sh

# A person asks by ssh and another approves; with V=1 also what the desk does on the files of examples/. Over build/desk, or what `make try` left; else over a
# program that is built WITHOUT A PROOF in some three minutes, and it says so.
demo:
	V=$(V) bash scripts/demos.sh

# The program on each case of cases/: files, words and inputs, with all that it answers. Both of the functions that decide, on 100,000 random invocations. Then reports of random sets of messages, beside a second
# reading of the rules; and the same of desk-audit.
cases: desk
	$(GATE) cases

# The whole gate (docs/change/GATE.md): `rt ci`, which proves everything from nothing, tries the edits that must be refused and runs the tests; then,
# over the program that it left at build/desk, all other parts side by side. What it needs of Debian is installed where this is root; with
# WHOLE=1 nothing may be left out. Its last line is 'N passed, 0 failed'. A target below that names a part of it runs that part alone.
# Nothing of it depends on what the shell that starts it has ignored, closed or set.
GATE = python3 -I -S scripts/apart.py --grace 30 python3 scripts/gate.py
test:
	WHOLE=$(WHOLE) $(GATE)

# What can be seen in seconds, without a proof: the layout, that each edit fits its file, what the documents say of edits, the files that they name, and the scripts' own layout.
quick:
	python3 scripts/quick.py

# `rt ci` alone, and what it cost each crate: the table of docs/change/GATE.md.
gate-times:
	python3 scripts/gate_times.py

# The edits of crates/NAME/more-edits/, which the prover must refuse as well: of all crates, or of those that CRATES names.
edits:
	python3 scripts/edits.py $(CRATES)

# The counts of docs/proof/DEFINITIONS.md, which `make quick` tests; build/edits.md, the edits by promise; and build/definitions.md, each definition that a public clause names.
docs:
	python3 scripts/make_docs.py

# docs/concepts.svg of docs/concepts.dot (Debian's package graphviz).
picture:
	python3 scripts/picture.py

# The clauses of each public function, at build/contracts.txt: `diff` of the lists of two trees shows what a change of the code does to contracts.
contracts:
	mkdir -p build
	python3 scripts/contracts.py > build/contracts.txt

# What the desk decides beside what sudo itself answers (as root; Debian's packages sudo and faketime), and of 2,200 random policies; and what sudo reads of the files of 2,000
# random requests of odd words; nothing of the machine changes. Then `desk serve` asked over loopback (curl), the file of a desk beside Debian's `sqlite3`, and a desk that is killed while it takes messages.
peers: desk
	$(GATE) peers

# Time and memory: `check` and `decide` beside visudo (Debian's package sudo) on up to 16,001 rules, on 8,000 aliases with 8,000 rules, and on
# the greatest weight; `print` on 800 and 8,000 requests; `beyond` on 1,000,000 cases; `serve` beside nginx (Debian's package nginx-light) and, over a file, beside `deliver`; `deliver` to a
# file beside C SQLite (Python's `sqlite3`), and what it costs to open one; what is in force beside a million messages; how many messages a second reach three
# desks (this needs root, as `several` does). All of it runs, also where a row fails.
bench: desk
	status=0; for part in bench bench_http bench_store bench_history; do python3 -m tests.bench.$$part || status=1; done; \
	    bash tests/several/several.sh --rate || status=1; exit $$status

# The program with each request for memory refused in turn.
faults: desk
	$(GATE) faults

# Reads and writes of the program that fail, disks that fill and files that change under it, each place; the program killed 600 times over 20,000 messages; 1,000 rosters taken under load; and
# a million inputs changed at random, each answer beside a second reading; 10,000 random histories cut, and desk-cut killed and failing at each of its calls. The last line of
# each has the counts. `make test` runs a short form of each.
soak: desk
	bash scripts/tools.sh
	python3 -m tests.soak.reads_and_writes --whole
	python3 -m tests.soak.healing --whole
	python3 -m tests.peers.crowd --whole
	python3 -m tests.soak.kills
	env CHANGES=1000 python3 -m tests.soak.rosters
	env COUNT=10000 CORES=$$(nproc) python3 -m tests.cases.random_cuts
	python3 -m tests.soak.cuts
	/usr/bin/python3 -m tests.soak.soak

# A machine that is lost, in the long form: backup and restore killed at each of their system calls, and ten losses over 300 messages and 30 faked days, on
# machines that boot (as root).
lost: desk
	python3 -m tests.backup.kills
	WHOLE=1 bash tests/backup/machines.sh

# A history that is cut, in the long form: killed, and with a full disk, at 60 places, and by three desks while twenty hosts fetch (as root).
cuts: desk
	PLACES=60 HOSTS_THAT_FETCH=20 bash tools/test.sh -k cut

# The types and style of relays/, broker/ and tools/, by mypy and flake8 (it installs them where this is root).
types:
	bash scripts/types.sh

# The relays (docs/RELAYS.md): a real sshd, a real browser behind nginx, and relays that are killed, over build/desk or the program that DESK names. What
# it needs of Debian is installed where this is root.
relays-test:
	bash relays/test.sh

# A relay that has kept for a year: each question over 331,249 messages, the page, what people read by ssh, and their memory.
year:
	YEAR=1 bash relays/test.sh -k test_year

# The door (docs/SIGNING.md): forgeries, a real sshd and agent, a journal that is killed, cut and full. This is the long form, with 60 places, 100,000
# rows and the door's rate; the gate has the short one.
door-test:
	bash door/test.sh whole

# The tools (docs/LINT.md, docs/IMPORT.md, docs/USED.md, docs/EVIDENCE.md, docs/CHANGING.md, docs/PEOPLE.md): desk-lint beside the desk, desk-import and desk-used beside sudo itself, over build/desk or the program that DESK names.
tools-test:
	bash tools/test.sh

# The hosts (docs/HOSTS.md): desk-host and sudo's plugin, and the sudo of Debian 11, 12, 13, sid and a 32-bit 12, with PAM and terminals, in roots that
# debootstrap makes in ~/.cache/steelnewt-hosts (as root; some 1.3 GB, and once a minute or two each), and under a systemd; 102 revocations beside a
# thousand processes; 100,000 random records. Over build/desk or the program that DESK names.
hosts:
	bash scripts/tools.sh
	/usr/bin/python3 -m tests.hosts.hosts

# A site's sudoers files moved to a desk (docs/IMPORT.md), in roots of this machine and of Debian 12, 13 and sid, beside their real sudo.
moving:
	bash scripts/tools.sh all
	/usr/bin/python3 -m tests.moving.moving

# The program, its manual pages, completions, units and examples below $(DESTDIR)$(PREFIX); the manual pages and completions alone; Debian's packages
# in build/deb (dpkg-dev and debhelper); and these packages tried in a root of their own (as root, at most three minutes). None of them proves anything
# where build/desk is there.
PREFIX ?= /usr/local
export PREFIX DESTDIR

build/desk build/desk-audit &:
	bash scripts/build.sh

install: build/desk build/desk-audit
	bash scripts/install.sh

deb: build/desk build/desk-audit
	bash scripts/deb.sh

# The packages of the commit that is checked out, made twice, in build/release: an apt folder that KEY (a key of gpg) signs,
# with the last lines of the gate's output, which GATE names. `python3 -m tests.packages.release` tries one.
release: build/desk build/desk-audit
	GATE='$(GATE)' KEY='$(KEY)' bash scripts/release.sh

pages: build/desk
	$(GATE) pages

package-test: build/desk build/desk-audit
	$(GATE) packages

# Machines that boot, over the packages of build/deb (as root): a machine's lives, TEAM and the runbooks. With LAST, the folder of the last release's packages,
# also an upgrade from these, and machines of both versions.
machines: deb
	status=0; for part in lives team books; do LAST= python3 -m tests.machines.$$part || status=1; done; \
	    if [ -n "$(LAST)" ]; then LAST="$(LAST)" python3 -m tests.machines.lives && python3 -m tests.machines.mixed "$(LAST)" || status=1; fi; exit $$status

# Several desks behind a broker (docs/SEVERAL.md): the broker's package by its own tests, then three nodes of RabbitMQ and three desks on loopback while
# messages go on and each is killed (as root; what it needs of Debian is installed). At most six minutes; `bash tests/several/several.sh --short` takes two.
# `bash tests/several/several.sh --rate` only measures how many messages a second go through.
several: desk
	bash tests/several/several.sh

clean:
	rm -rf build crates/*/out
