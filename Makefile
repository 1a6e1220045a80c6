.PHONY: demo run quick build install uninstall dist deb test edits rows ways retold docs faults clients clients-test clients-fuzz conformance

PREFIX = /usr/local

# Whom `make run` serves, where, and how: words of `mqserve serve`, as OPTIONS="--socket-mode 0660". Paths in them are absolute.
USERS = demo/users
ADDRESS = 127.0.0.1:7000
OPTIONS =

# How many crates `make build` proves at a time; where nothing is given as many as there are cores, but at most 4. A proof takes up
# to 8 GB of memory.
JOBS =

# A server on loopback and two clients in Python, and what mqctl shows: seconds over proved programs. Where no server is proved it
# is one rt try, which takes a minute or two.
demo:
	@demo/run.py

# A server of one's own, on one thread: make run USERS=FILE ADDRESS=HOST:PORT. Ctrl-C ends it. Where none is proved, it is one
# `rt try`.
run:
	@tools/programs.py "$(USERS)" "$(ADDRESS)" $(OPTIONS)

# Tells in minutes whether a change is good, without proof, and by proved programs where they stand. With CRATE=NAME it proves that
# crate too, and runs only what stands on it.
quick:
	@tools/quick.py $(CRATE)

# Proves what the two programs stand on, and builds them. Tests and wrong bodies are left out.
build:
	@tools/build.py $(JOBS)

# With PROGRAMS=DIR the programs mqserve and mqctl of that folder are installed as they are, and nothing is proved.
PROGRAMS ?=

# DESTDIR as the clients' folder has it: a relative path is of this one.
STAGE = $(if $(filter-out /%,$(firstword $(DESTDIR))),$(CURDIR)/)$(DESTDIR)

# Where the pages for users and operators go.
DOCDIR = $(PREFIX)/share/doc/mqserve

# Puts the proved programs into $(PREFIX)/bin, what a service needs into the folders for it, and the documents into $(DOCDIR):
# docs/run/service.md goes on.
install: $(if $(PROGRAMS),,build)
	install -D -m 755 "$(or $(PROGRAMS),crates/mqserve/out)/mqserve" "$(DESTDIR)$(PREFIX)/bin/mqserve"
	install -D -m 755 "$(or $(PROGRAMS),crates/mqctl/out)/mqctl" "$(DESTDIR)$(PREFIX)/bin/mqctl"
	install -D -m 755 tools/users "$(DESTDIR)$(PREFIX)/bin/mqserve-users"
	install -D -m 644 service/mqserve.service "$(DESTDIR)$(PREFIX)/lib/systemd/system/mqserve.service"
	sed -i 's,/usr/local/,$(PREFIX)/,' "$(DESTDIR)$(PREFIX)/lib/systemd/system/mqserve.service"
	install -D -m 644 service/mqserve.sysusers "$(DESTDIR)$(PREFIX)/lib/sysusers.d/mqserve.conf"
	install -D -m 600 service/users.example "$(DESTDIR)$(PREFIX)/share/mqserve/users.example"
	tools/install_pages.py "$(DESTDIR)$(DOCDIR)"
	$(MAKE) -C clients install DESTDIR="$(STAGE)" PREFIX="$(PREFIX)"

# Takes back what make install put below $(PREFIX).
uninstall:
	rm -f "$(DESTDIR)$(PREFIX)/bin/mqserve" "$(DESTDIR)$(PREFIX)/bin/mqctl" "$(DESTDIR)$(PREFIX)/bin/mqserve-users" \
		"$(DESTDIR)$(PREFIX)/lib/systemd/system/mqserve.service" "$(DESTDIR)$(PREFIX)/lib/sysusers.d/mqserve.conf" \
		"$(DESTDIR)$(PREFIX)/share/mqserve/users.example"
	tools/install_pages.py --remove "$(DESTDIR)$(DOCDIR)"
	$(MAKE) -C clients uninstall DESTDIR="$(STAGE)" PREFIX="$(PREFIX)"

# An archive of the sources, and a Debian package of what make install puts in place, in out.
dist:
	@tools/packages dist

deb:
	@PROGRAMS="$(PROGRAMS)" tools/packages deb

# The client libraries in C and Python, and the library that runs programs as they are on a server: a C compiler is enough.
clients:
	$(MAKE) -C clients

# Their tests, beside the server that is built, or beside the one that MQSERVED names.
clients-test:
	$(MAKE) -C clients test

# Programs over each client behind a relay that cuts, delays, drops, repeats and garbles answers: make clients-fuzz RUNS=10000 SEED=2. The
# clients' tests have 200 such runs.
clients-fuzz:
	$(MAKE) -C clients clients-fuzz

# Programs of others, on the kernel's queues and on a server. It needs the network, and is no part of the gate.
conformance:
	$(MAKE) -C clients conformance

# Every proof, wrong body, test and program's first run, from nothing: the greatest part of the gate, .ci/run. The last line is
# 'N passed, M failed'. Each proof gets one job: a second one costs more processor time than it saves while other proofs wait.
test:
	@RT_JOBS=$${RT_JOBS:-$$(nproc)} rt ci

# The wrong bodies that the gate leaves out, each of which must be refused too, over the proofs that `rt ci` kept; with CRATE=NAME
# those of one crate.
edits:
	@tools/edits.py $(CRATE)

# Runs the programs that make test or make build left, over inputs whose outcome is known: both streams, and statuses.
rows:
	@rows/trails.py --check
	@rows/run.py
	@rows/servers.py
	@rows/bounds.py
	@rows/user_sockets.py
	@rows/served_trails.py
	@rows/retellings.py
	@rows/retold.py
	@rows/carried.py
	@rows/metrics.py

# Plays random scripts through a script and through a server, and compares every answer. `make ways SCRIPTS=1000` plays more.
SCRIPTS = 50
ways:
	@rows/two_ways.py $(SCRIPTS)

# Retells random trails, and compares what lives in both and how servers go on from both: make retold COUNT=2000 CONTINUATIONS=3. The rows have 20.
COUNT = 200
CONTINUATIONS = 1
retold:
	@rows/retold.py $(COUNT) --continuations $(CONTINUATIONS)

# Compares the documents with what they speak of, and looks at their links, words and sentences.
docs:
	@tools/documents.py

.PHONY: generate pictures blocks

# Writes the pages, and the parts of pages, that are generated from the sources; and the pictures that are generated from figures.
generate:
	@tools/generate.py

pictures:
	@tools/pictures.py

# Runs the shell blocks of the pages for users and operators, and compares what they print with the page. PAGES=FILE.. runs those alone.
blocks:
	@tools/blocks.py $(PAGES)

# Refuses each growth in turn, and disturbs each read and write in turn, in the programs that make test left. The last line
# counts the allocations refused and the runs that failed.
faults:
	@faults/run.py
	@faults/switched.py
