# `make help` lists the targets.
KIT := rattle-kit-13f logic dac8208d650f15bf
LOGIC := $(lastword $(KIT))
TARGET ?= $(shell uname -m)-unknown-linux-gnu
STEPS ?= 10000000
LOGS ?= 100000
SEED ?=

.PHONY: help kit demo archive command hosts soak in-turn bench matched test
# the targets share target/ and dist/
.NOTPARALLEL:

help:
	@echo 'make demo     the worked example of document 01 as words with its report, and a tap against a revocation in three orders; seconds, proves nothing'
	@echo 'make test     prove every crate, try the must-fail edits, run the programs; beside that the host tests'
	@echo 'make archive  prove the library and write dist/TARGET: an archive, the header and a page, for x86-64 and aarch64 Linux and for Android'
	@echo 'make command  the same, and dist/toruxeng, a program for people: replay, check, show, pack, orders'
	@echo 'make hosts    the host tests alone: each archive against a plain Rust twin, the C and Rust programs'
	@echo 'make soak     the archive of TARGET (this machine) against the twin for STEPS steps (10000000) from SEED (the time)'
	@echo 'make in-turn  LOGS random logs (100000) from SEED (the time) through the archive of TARGET, and their transactions once more, one after another'
	@echo 'make bench    the times of the archive and of the twin, SQLite in memory beside them, and how they grow; instructions, by kind of step too'
	@echo 'make matched  the same mistake in model, words and code, for each of matched/: none may be proved'
	@echo 'make kit      which kit this was proved with, and which is found here'
	@echo 'make help     this list'

# one line: which kit proves this and which is found; fails where the toolchain is missing or proves by another logic
kit:
	@have=$$(rt version 2>&1) || have="no rt that runs: $$have"; \
	echo "toruxeng is proved with '$(KIT)'; found: $$have" >&2; \
	case "$$have" in *' $(LOGIC)') ;; *) exit 1 ;; esac

demo: kit
	@hosts/demo

archive: kit
	@hosts/archive
	@ls dist/*/lib* dist/*/CONTENTS.txt

command: kit
	@hosts/needs cargo cc
	@hosts/archive
	@cd hosts/rust && cargo build --offline --quiet --release -p command
	@cp hosts/rust/target/release/toruxeng dist/toruxeng
	@echo dist/toruxeng

hosts: kit
	@hosts/test

soak: COUNT := STEPS
in-turn: COUNT := LOGS
# what is asked for wrongly, or is missing, is said before anything is proved
soak in-turn: kit
	@for number in '$($(COUNT))' '$(or $(SEED),0)'; do \
	    case $$number in '' | *[!0-9]*) echo "$(COUNT) and SEED are whole numbers, not '$$number'" >&2; exit 2 ;; esac; \
	done
	@hosts/targets '$(TARGET)'
	@hosts/needs cargo gcc
	@hosts/archive
	@hosts/build '$(TARGET)'
	@echo 'dist/$(TARGET) against the twin'
	@cd hosts/rust && TORUXENG_DRIVER='$(CURDIR)/target/hosts/$(TARGET)/driver' cargo run --offline --quiet --release -p compare --bin $(subst -,_,$@) $($(COUNT)) $(SEED)

bench: kit
	@hosts/needs cargo cc
	@hosts/archive
	@echo "dist/$$(uname -m)-unknown-linux-gnu beside the twin"
	@cd hosts/rust && cargo run --offline --quiet --release -p bench

matched: kit
	@matched/try

test: kit
	@docs/check
	@hosts/beside
