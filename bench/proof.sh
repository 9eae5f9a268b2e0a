#!/usr/bin/env bash
# Measures the time of proofs, and prints it as Markdown: for each crate its proof from nothing, the proof of its tests, and
# its mutants; and the slowest functions and modules of the checker.
#
#     bench/proof.sh [--proof] [--tests] [--edits] [--slowest] [CRATE..]
#
# With options it measures only these, and with names only these crates. All of it takes an hour and more on four processors;
# `bench/proof.sh --slowest pb_bpdu` takes a minute.
set -eu
cd -- "$(dirname -- "$0")/.."
exec python3 bench/proof.py "$@"
