.PHONY: demo serve try clients build install uninstall handler quick proofs test edits bodies bench docs rows pages

CLIENT = tools/demo_client.hex
ROSTERS = $(CURDIR)/data/rosters
WORDS = serve $(ROSTERS) 7 01020304
PORT = 5433
FILE = data/rosters
HANDLER =
NAME =
NAMES =
PREFIX = $(HOME)/.local
export PORT FILE HANDLER NAME PREFIX
# The programs that bench/ measures.
MEASURED = $(notdir $(wildcard $(addprefix crates/,server interval_bench text_rows message_rows cancel_stress)))
# Runs a command in a folder, and shows what it says only where it fails.
QUIETLY = log=$$(mktemp) && if (cd $(1) && $(2)) >$$log 2>&1; then rm -f $$log; else cat $$log; rm -f $$log; exit 1; fi
# The programs below are the proved ones where make build has built them and they are up to date; else they are built unproved,
# once, and kept under .built/ until a source changes (tools/programs.py).

# Serves a sample client and shows its frames and the replies.
demo:
	@python3 -B tools/show_frames.py $(CLIENT) tools/run_server $(WORDS)

# Serves a relation file at a port of 127.0.0.1, until it is interrupted: make serve FILE=my/file PORT=5434. PORT=0 takes a free
# port. With HANDLER=dates it serves what make handler NAME=dates made.
serve:
	@python3 -B tools/serve.py "$$PORT" "$$FILE" "$$HANDLER"

# Runs psql over the sample relations, and compares what it prints; then cancels queries by the keys of 3.0 and of 3.2; then
# tries a server with few descriptors and threads, large batches, where it listens, and Unix sockets that were left over; then
# tries each program that listens with a hostile crowd, while another client's queries are timed; then brings each program to
# each of its statuses; then sends half a client, and the rest once that was answered; then runs files, clients, replies,
# recordings and reports that are larger than each buffer; then sees that a server's size stays over 40,000 queries
# (tools/try_soak 100000 takes more); then tells the rotas of README.md; then runs psql's cursors over `pg_cursor`; then records
# the sample client, verifies it, and sees changes named; then runs the examples of the pages and of each --help; then tries the
# clients of docs/CLIENTS.md that are installed; then has clients book shifts at once, in transactions too; then follows
# docs/HANDLERS.md on a copy of the repository. make try NAMES="psql keys" for some of these.
try:
	@python3 -B tools/try_all.py $(NAMES)

# Tries each client of docs/CLIENTS.md that is installed, over the proved program where it was built: make clients NAMES=psql for
# one alone.
clients:
	@tools/try_clients $(NAMES)

# Proves the program and all that it stands on, builds it, and shows the same frames from what was built. make build NAMES="cursor
# replay rota" proves and builds the others.
build:
	@echo "$(or $(NAMES),The program) is proved and built: from nothing 40 to 70 minutes of processor time, later only what changed."
	@python3 -B tools/programs.py --build $(or $(NAMES),server)
	@$(if $(NAMES),,python3 -B tools/show_frames.py $(CLIENT) crates/server/out/server $(WORDS))

# Puts the programs relation_server, pg_cursor, pg_replay and rota_report into PREFIX/bin; make uninstall removes them.
install:
	@python3 -B tools/install.py "$$PREFIX"

uninstall:
	@python3 -B tools/install.py "$$PREFIX" --remove

# Copies the example of docs/HANDLERS.md, crates/styles and crates/styles_server, under a name of one's own: make handler NAME=dates.
handler:
	@python3 -B tools/handler.py "$$NAME"

# Compares the pages and rows that are made of others; then proves everything from nothing, tries the must-fail edits that are not
# held, runs every test and program (rt ci); then make try over the programs that were proved. As many checks run side by side as
# there are processors. They take up to 5 GB each; where memory is short, RT_JOBS=2 make test has fewer.
test:
	@python3 -B tools/test.py

# The proofs, edits, tests and programs alone: rt ci.
proofs:
	@python3 -B tools/test.py --proofs

# All that can be seen without a proof: each table program and each test as rt try runs them, the programs built unproved, and the
# scripts of make try over these. make quick NAMES="word_rows rota" for some crates.
quick:
	@python3 -B tools/quick.py $(NAMES)

# Tries the edits that the gate leaves out and that aren't recorded as refused on what stands here, and records what refused each in
# tools/held_edits.tsv (hours from nothing): make edits NAMES=pg_session for one crate's.
edits:
	@python3 -B tools/held_edits.py $(NAMES)

# Plants the wrong bodies under planted/, which no clause refuses, one at a time in a copy that is built unproved; sees that the rows, the
# tests or the script that each names fail with it and pass without it; and records what refused each in tools/planted_bodies.tsv (hours
# from nothing): make bodies NAMES=job_threads for one crate's, NAMES=server/server_drops_its_status for one.
bodies:
	@python3 -B tools/planted_bodies.py $(NAMES)

# Times queries, printers, readers, the codec and the registry, on programs that are proved and built first.
bench:
	@echo "The programs are proved and built: from nothing up to two hours of processor time, later only what changed."
	@$(call QUIETLY,crates/rota,rt run -- --version)
	@for program in $(MEASURED); do $(call QUIETLY,crates/$$program,rt run -- $$(cat args 2>/dev/null) < stdin); done
	python3 bench/serve_loop.py crates/server/out/server
	bench/tcp_memory
	@for times in bench/key_costs bench/growth_costs $(wildcard bench/*_times); do echo $$times; $$times || exit 1; done

# Compares docs/DEFINITIONS.md and docs/CONTRACTS.md with the crates that they are made from, and docs/WRONG_BODIES.md with the
# edits, bodies, tests and checks that it names; and sees that no source forgets what it holds.
docs:
	@status=0; for page in definitions contracts check_wrong_bodies check_sources; do python3 -B tools/$$page.py || status=1; done; exit $$status

# Compares the rows and answers that are stored with what the tools that restate the rules make of them.
rows:
	@python3 -B tools/rows.py $(NAMES)

# Makes the two pages from the crates anew.
pages:
	@for page in definitions contracts; do python3 -B tools/$$page.py --write || exit 1; done
