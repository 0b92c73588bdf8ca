# make list             prove what is needed, build the listing program, list examples/season.txt
# make list IN=FILE     the same for another file
# make test             everything: the kit, what each crate shows, every proof and must-fail edit, the layout, the hosts
# make bench            the benchmark; writes docs/BENCHMARK.md
# make compare OLD=FILE what a change costs: the archive against an earlier one in one run, table by table; NEW=FILE
#                       for another than the one of these sources (tools/trial.py builds one without proofs)
# make refusals         every must-fail edit: the fact that the prover finds to fail (at once where nothing changed)
# make mutants          faults planted in the C engine of host/peer, each found by the tests of host/
# make mutants-rattle   the same in the Rattle sources, built without proofs
# make clean            remove what was built

SHELL := bash
.SHELLFLAGS := -eu -o pipefail -c
.NOTPARALLEL:
.PHONY: list test kit surface proofs refusals refused hosts verdict engine bench compare mutants mutants-rattle clean

RT ?= rt
IN ?= examples/season.txt

LOGS := $(CURDIR)/host/target
LOG := $(LOGS)/rt-ci.log
# rt ci prints nothing of a crate until it is done: this says what is being proved meanwhile.
PROGRESS := python3 $(CURDIR)/tools/progress.py
HOST := $(MAKE) --no-print-directory -C host

list: kit
	@[ -r "$(IN)" ] || { echo "list: cannot read $(IN)"; exit 1; }
	@echo "list: proving ringlist and what it rests on (minutes the first time, then nothing)"
	@mkdir -p $(LOGS)
	@cd crates/ringlist && $(PROGRESS) --log $(LOGS)/rt-run.log list $(RT) run <"$(abspath $(IN))"
	@echo "list: the rings of $(IN)"
	@crates/ringlist/out/ringlist <"$(IN)"

test: kit surface proofs refused hosts verdict

# The kits of the file KIT have proved this repository. Another may too, but nobody has looked.
kit:
	@command -v $(RT) >/dev/null || { echo "kit: no $(RT) in the PATH; the kits wanted are those of the file KIT:"; cat KIT; exit 1; }
	@found=$$($(RT) version); \
	if ! grep -qxF -- "$$found" KIT; then \
	    echo "kit: another kit than those of the file KIT"; \
	    echo "kit: found   $$found"; \
	    sed 's/^/kit: listed  /' KIT; \
	    exit 1; \
	fi; \
	echo "kit: $$found"

surface:
	@echo "surface: what each crate shows, against docs/SURFACE.md"
	@python3 tools/surface.py

# Of the layout and of files that no check reads rt ci looks too. A bad edit fails nothing there, and so fails here.
proofs:
	@echo "proofs: rt ci: every crate, its layout, must-fail edits, every program (minutes, or what changed since it passed here)"
	@mkdir -p $(LOGS)
	@$(PROGRESS) proofs $(RT) ci 2>&1 | tee $(LOG)
	@tail -n 1 $(LOG) | grep -qE '^[0-9]+ passed, 0 failed$$' || { echo "proofs: rt ci did not end with its verdict"; exit 1; }
	@grep -qE '^rt: ok; ' $(LOG) || { echo "proofs: rt ci did not say rt: ok"; exit 1; }
	@! grep -E '^rt: ok; .*, [1-9][0-9]* bad' $(LOG) || { echo "proofs: bad must-fail edits, as told above"; exit 1; }

refusals:
	@echo "refusals: every must-fail edit, and the fact that fails"
	@python3 tools/refusals.py

# What rt ci has just said of each: nothing is tried again.
refused:
	@echo "refusals: every must-fail edit, and the fact that fails"
	@python3 tools/refusals.py --log $(LOG)

# rt ci builds no static library.
engine:
	@echo "hosts: rt lib in crates/engine"
	@mkdir -p $(LOGS)
	@cd crates/engine && $(PROGRESS) --log $(LOGS)/rt-lib.log hosts $(RT) lib

hosts: engine
	@echo "hosts: Rust tests against the archive"
	@$(HOST) host-test
	@echo "hosts: C host on the examples"
	@$(HOST) c-host
	@echo "hosts: the listing program on inputs around every refusal"
	@sh host/ringlist-runs.sh

# rt ci's own line, once more and last: everything before it passed.
verdict:
	@tail -n 1 $(LOG)

bench: kit engine
	@$(HOST) bench

compare:
	@[ -r "$(OLD)" ] || { echo "compare: cannot read the earlier archive '$(OLD)': make compare OLD=FILE"; exit 1; }
	@[ -n "$(NEW)" ] || $(MAKE) --no-print-directory kit engine
	@$(HOST) compare OLD="$(abspath $(OLD))" $(if $(NEW),NEW="$(abspath $(NEW))")

mutants:
	@$(HOST) mutants

mutants-rattle:
	@$(HOST) mutants-rattle

clean:
	rm -rf crates/*/out host/target
