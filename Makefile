# README.md says which of these a newcomer needs.

# The folder of the upstream source that holds src/sph_geom. Where it is not there, the live comparison is left out.
UPSTREAM ?= ../shared/docs/src
SEED ?= 1
COUNT ?= 200000
LISTS ?= 10000
PREFIX ?= /usr/local

.PHONY: help setup setup-c demo lib camera install dist test doors camera-test flips differential lists roots fixed-list bench camera-bench dearest camera-dearest

help:
	@echo 'make demo          runs the example: makes a region file, draws its map by asking the C function, tells which fixes are inside'
	@echo 'make lib           build/libjigwandor.a and build/jigwandor.h, for C programs'
	@echo 'make camera        build/camera/libjigwandor.a for a Cortex-M0 or M0+, and build/camera/jigwandor.wasm'
	@echo 'make install       PREFIX=/usr/local: the archive for x86-64 Linux, the header, a pkg-config file, a CMake config'
	@echo 'make dist          build/dist/jigwandor-VERSION.tar.gz, for those who have no prover'
	@echo 'make test          the whole gate: proofs, must-fail edits, fixed list, docs/CALLS.md, docs/POLES.md and docs/TRACE.md, C tests, comparison with upstream'
	@echo 'make doors         the C tests alone'
	@echo 'make camera-test   the tests on the emulated core and as WebAssembly alone'
	@echo 'make flips         counts what single flipped bits of the example file do'
	@echo 'make differential  SEED=n COUNT=n: compares that many requests with upstream'
	@echo 'make lists         SEED=n LISTS=n: compares that many lists of 1 to 200 edits with upstream'
	@echo "make roots         SEED=n COUNT=n: compares that many whole roots with Rust's u64::isqrt"
	@echo 'make bench         measures the calls beside upstream and writes docs/BENCHMARKS.md; no test'
	@echo 'make bench ROWS=x  prints the times of the rows whose names contain x, and writes nothing'
	@echo 'make camera-bench  counts instructions and cycles on the emulated core, for docs/CAMERA.md; no test'
	@echo 'make dearest       searches for the containment that costs most, for make bench to measure: some four minutes; no test'
	@echo 'make camera-dearest  the same on the emulated core, for make camera-bench'
	@echo 'make fixed-list    makes the fixed list of crates/replay anew from upstream'
	@echo 'make setup         installs what is missing, by package name'

# Nothing is fetched where all is at hand.
setup: setup-c
	@tests/need rustc rustc
	@tests/need python3 python3

setup-c:
	@tests/need gcc gcc libc6-dev
	@tests/need g++ g++

demo:
	@c/demo

lib:
	@echo 'proving what the archive stands on: some minutes the first time, seconds after that'
	@c/build
	@echo 'build/libjigwandor.a, for x86-64 Linux; it needs the C library alone: cc -Ibuild program.c build/libjigwandor.a'

camera:
	@echo 'proving what the archive stands on: some minutes the first time, seconds after that'
	@camera/build
	@echo 'build/camera/libjigwandor.a and jigwandor.h, for a Cortex-M0 or M0+; build/camera/jigwandor.wasm. docs/CAMERA.md says how to link them'

install:
	@c/build
	@c/install '$(PREFIX)' build/libjigwandor.a build/jigwandor.h
	@echo 'installed below $(DESTDIR)$(PREFIX): pkg-config --cflags --libs jigwandor; CMake: find_package(jigwandor), jigwandor::jigwandor'

dist: camera
	@mkdir -p build/dist
	@dist/pack "build/dist/jigwandor-$$(cat VERSION).tar.gz"
	@ls build/dist/*-*.tar.gz

doors: setup-c
	@tests/need python3 python3
	@tests/doors
	@tests/demo

camera-test: setup-c
	@tests/need python3 python3
	@tests/camera

flips: setup-c
	@tests/flips

test: setup
	@tests/run '$(UPSTREAM)'

differential: setup
	@tests/differential '$(UPSTREAM)' '$(SEED)' '$(COUNT)'

lists: setup
	@tests/differential '$(UPSTREAM)' '$(SEED)' '$(LISTS)' edits

roots: setup
	@tests/differential '$(UPSTREAM)' '$(SEED)' '$(COUNT)' roots

fixed-list: setup
	@tests/fixed-list '$(UPSTREAM)'

bench:
	@bench/run '$(UPSTREAM)' '$(ROWS)'

camera-bench: setup-c
	@tests/need python3 python3
	@camera/bench

dearest:
	@bench/dearest '$(UPSTREAM)'

camera-dearest: setup-c
	@camera/dearest
