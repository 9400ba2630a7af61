# What there is to run. `rt` is the toolchain's command; README.md names its version.

.PHONY: needs-rt demo program ci bench

PROGRAM = $(CURDIR)/crates/depot_cli/out/depot_cli

# Says that the toolchain is missing, if it is.
needs-rt:
	@examples/needs_rt.sh

# Runs `trial` on each example and compares the replies: seconds with a proved program that lies
# ready, and else about half a minute. It proves nothing.
demo: needs-rt
	@examples/demo.sh

# Proves the program, keeps it, and lets it print its version. Before it those of the bench.
program: needs-rt
	@echo "Proving takes 5 to 15 minutes the first time, and a few seconds if nothing has changed."
	cd crates/stale_bench && rt run -- 3
	cd crates/file_bench && rt run -- rows 3
	cd crates/depot_cli && rt run -- --version
	@echo
	@echo "The program: $(PROGRAM)"
	@echo "To have it on the PATH as depot:"
	@echo "    mkdir -p ~/.local/bin && ln -sf '$(PROGRAM)' ~/.local/bin/depot"
	@echo "or, for this shell only:"
	@echo "    alias depot='$(PROGRAM)'"

# The gate: all proofs, must-fail edits, tests and programs.
ci: needs-rt
	.ci/run

# What loading, views, marks, the book of stale partitions, the whole machine and the bytes of files
# cost, against the bars of docs/PERFORMANCE.md. It wants Python 3 and valgrind, and the proved programs. Each script
# runs even if one before it misses a bar.
bench: needs-rt
	@missed=0; \
	for script in loading views marks stale machine files; do \
	    echo "bench/$$script.py"; \
	    python3 bench/$$script.py || missed=1; \
	done; \
	exit $$missed
