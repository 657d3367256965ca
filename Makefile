.PHONY: run serve feeder feeder-test lab test bench growths scripts udp-session hostile attacks endurance wrong-bodies networks

.PHONY: build prove install uninstall deb

# Compiles both programs with checks, proves nothing, and leaves them as build/agentd-try and build/manager-try.
build:
	tools/build

# Builds both programs, proved, and leaves them as build/agentd and build/manager.
prove:
	cd crates/agentd && rt run < stdin > /dev/null
	cd crates/manager && (rt run 2> /dev/null || test $$? -eq 2)
	tools/build --proved

# Installs what `make prove` has left, with the feeder, units, pages and completions, below PREFIX, in front of which DESTDIR stands.
PREFIX = /usr/local
DESTDIR =
install:
	tools/install --prefix "$(PREFIX)" --destdir "$(DESTDIR)"

# Removes the same files.
uninstall:
	tools/install --remove --prefix "$(PREFIX)" --destdir "$(DESTDIR)"

# Packs the same files for dpkg, below /usr, in build.
deb:
	tools/package build

# Answers some worked lines. It compiles and runs, and proves nothing.
run:
	cd crates/agentd && rt try < stdin

# Compiles the agent, proves nothing, and serves docs/serve.toml until it is ended.
serve:
	tools/serve

# Compiles the feeder, with the C library and Linux alone.
FEEDER_FLAGS = -std=c11 -D_GNU_SOURCE -O2 -ftree-vectorize -pthread -Wall -Wextra -Wpedantic -Wconversion -Wshadow -Werror
FEEDER_SOURCES = $(addprefix feeder/,main.c configuration.c addresses.c sockets.c incoming.c outgoing.c sending.c frames.c links.c log.c)
FEEDER_HEADERS = $(addprefix feeder/,port.h frames.h sending.h)
SANITIZERS = -g -fsanitize=address,undefined -fno-sanitize-recover=all

feeder: build/agentd-feeder

build/agentd-feeder: $(FEEDER_SOURCES) $(FEEDER_HEADERS)
	mkdir -p build
	$(CC) $(FEEDER_FLAGS) -o $@ $(FEEDER_SOURCES)

# Tries what reads frames with random and built ones, and runs the feeder in network namespaces, where root has them; both under the
# sanitizers of addresses and of undefined behaviour.
feeder-test: build/frames-test build/agentd-feeder-sanitized
	build/frames-test
	tools/feeder-session --feeder build/agentd-feeder-sanitized

FRAMES_TEST = $(addprefix feeder/,frames_test.c frames.c sockets.c addresses.c log.c)

build/frames-test: $(FRAMES_TEST) feeder/incoming.c $(FEEDER_HEADERS)
	mkdir -p build
	$(CC) $(FEEDER_FLAGS) $(SANITIZERS) -o $@ $(FRAMES_TEST)

build/agentd-feeder-sanitized: $(FEEDER_SOURCES) $(FEEDER_HEADERS)
	mkdir -p build
	$(CC) $(FEEDER_FLAGS) $(SANITIZERS) -o $@ $(FEEDER_SOURCES)

# Reads the words of documents, comments, printed texts and names, and whether each function that may answer that there is no memory
# has its row; proves every crate, tries the must-fail edits, runs the tests and the programs; then runs the agent so built over the
# stored scripts and over a random one, refuses its growths of memory for names in turn, runs it as the bridges of stored and of random
# networks, and serves it over UDP, where the manager and, if it is there, Net-SNMP ask it, and where four clients ask it at the same
# time, which a script replays; then runs the manager by stored runs, in which the agent is played, and installs both programs into a
# folder, and checks what lies there; last, where root has network namespaces, it tries the feeder, under sanitizers and without, and by
# it the agent between two hosts.
# As many checks run at a time as there are processors, each in one job, since a check in two takes some half more processor time. rt
# then takes no account of free memory: have some 4 GB for each processor, or give a smaller RT_JOBS.
test: feeder
	tools/words
	tools/wants-of-memory --check
	RT_JOBS=$${RT_JOBS:-$$(nproc)} rt ci
	tools/stored-scripts
	tools/random-script
	tools/refused-growths --where-possible names family views
	tools/stored-networks
	tools/random-networks
	tools/udp-session
	tools/replay
	tools/manager-session
	tools/install-session
	$(MAKE) feeder-test
	tools/feeder-session
	tools/lab --hosts

# Tries further wrong bodies, which the gate leaves out: of all crates, or of CRATES="NAME ..".
wrong-bodies:
	tools/wrong-bodies $(CRATES)

# Builds the programs agentd and manager, proved, and runs them with each growth of memory refused in turn.
growths:
	cd crates/agentd && rt run < stdin > /dev/null
	cd crates/manager && (rt run 2> /dev/null || test $$? -eq 2)
	tools/refused-growths

# Builds agentd, proved, and runs it over the stored scripts and a random one alone.
scripts:
	cd crates/agentd && rt run < stdin > /dev/null
	tools/stored-scripts
	tools/random-script

# Builds agentd, proved, and runs it as the bridges of the stored networks and of 2,000 random ones.
networks:
	cd crates/agentd && rt run < stdin > /dev/null
	tools/stored-networks --seeds 10
	tools/random-networks --seed 1 --networks 2000 --table

# Builds both programs, proved, and serves over UDP alone.
udp-session:
	cd crates/agentd && rt run < stdin > /dev/null
	cd crates/manager && (rt run 2> /dev/null || test $$? -eq 2)
	tools/udp-session

# Builds agentd, proved, serves it, and sends it a million changed datagrams and frames, and requests as large as it takes.
hostile:
	cd crates/agentd && rt run < stdin > /dev/null
	tools/hostile

# Builds agentd, proved, serves it, and attacks it where no clause speaks of what comes of it; as root in network namespaces too.
attacks:
	cd crates/agentd && rt run < stdin > /dev/null
	tools/attacks

# Builds agentd, proved, and serves it for an hour under a mixed load, while it watches the resident memory.
endurance:
	cd crates/agentd && rt run < stdin > /dev/null
	tools/endurance

# Builds agentd, proved, and tries it as root, in network namespaces, between hosts, beside a Linux bridge and beside Open vSwitch.
lab: feeder
	tools/lab --spaces
	cd crates/agentd && rt run < stdin > /dev/null
	tools/lab

# Builds the programs, proved, and measures them.
bench:
	bench/run
