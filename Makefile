# Reamsickle: the static library and the C programs over it. Needed are the Rattle toolchain (rt), a C compiler and
# make. All that is built stands under target/.
#
#   make                the library and the host programs
#   make run            the tool's simulation of updates, power cuts, failed steps and recoveries, with a picture
#   make example        a driver in small, host/example
#   make test           the gate: all proofs and all tests (.ci/run)
#   make host-test      the gate's C part: the four tests below and the host test, plain and with sanitizers
#   make cuts-test      a fixed run of the power-cut simulator
#   make tool-test      the tool's own test
#   make install-test   an installation under target/, tried from C and C++
#   make replay         the inputs of fuzz/corpus, compared
#   make soak           the power-cut simulator, until it is interrupted
#   make bench          the time of each entry beside the reference's, and of a half's code beside other C
#   make fuzz           all entries under libFuzzer; not part of the gate
#   make corpus         writes fuzz/corpus anew, the inputs that fuzzing starts from
#   make valgrind       the example, the corpus, the simulator and the host test under valgrind; not part of the gate
#   make library        the library alone; with TARGET, that of another target: docs/DRIVERS.md
#   make stack          the stack that each entry takes, for every target
#   make cross-test     the other targets' libraries: their code, the host test and the simulator; not part of the gate
#   make install        the library with its header and pkg-config file, and the tool with its manual
#   make uninstall      removes them again
#   make clean          removes target/
#   make help           prints this
#
# Variables, as they are where nothing else is given:
#
#   CC=cc CXX=g++ CFLAGS=-O2       the compilers, and the flags of the host programs
#   PREFIX=/usr/local DESTDIR=     of install and uninstall: where to; DESTDIR stages it elsewhere
#   SEED=(the time) HISTORIES=0    of soak: the first history's seed, and how many; 0 goes on until it is interrupted
#   FUZZ_CC=clang FUZZ_TIME=60     of fuzz: the compiler, and for how many seconds
#   VALGRIND_HISTORIES=200         of valgrind: how many histories the simulator runs
#   VALGRIND_ROUNDS=50             of valgrind: of the host test's long trials one round in so many is made
#   TARGET=                        of library: aarch64-linux-gnu, aarch64-kernel or x86_64-kernel; the archive is
#                                  target/TARGET/libreamsickle.a. None: x86-64 Linux, target/staticlib/libreamsickle.a
#   AARCH64=aarch64-linux-gnu-     of stack and cross-test: what the names of the compiler and binutils begin with
#   QEMU=qemu-aarch64              of cross-test: what runs programs of AArch64
#   CROSS_ROUNDS=1                 of cross-test: of the host test's long trials one round in so many is made

CC ?= cc
CFLAGS ?= -O2
WARNINGS := -std=c99 -Wall -Wextra -pedantic
SANITIZE := -g -fsanitize=address,undefined -fno-sanitize-recover=all
FOLDERS := -Iinclude -Ihost/common -Ihost/reference

library := target/staticlib/libreamsickle.a
host := target/host
programs := example host_test histories bench ream

.DELETE_ON_ERROR:

.PHONY: all help clean

all: $(library) $(programs:%=$(host)/%) $(host)/host_test_sanitized $(host)/histories_sanitized $(host)/ream_sanitized

# The crate that exports the C entries is reamsickle_c. The archive is for any x86-64 processor.
$(library): $(shell find crates crates.txt -type f -not -path '*/out/*' 2>/dev/null)
	cd crates/reamsickle_c && rt lib --cpu=x86-64
	@mkdir -p $(@D)
	cp crates/reamsickle_c/out/libreamsickle_c.a $@

help:
	@sed -n -e '/^#/!q' -e 's/^# \{0,1\}//p' $(firstword $(MAKEFILE_LIST))

clean:
	rm -rf target

# ---- the host programs

# A program is the C files of one folder, and what it needs of host/common and host/reference. It is built plain, and
# with sanitizers under the name PROGRAM_sanitized. $(call objects,FLAVOUR,SOURCES), $(call flavour,FLAVOUR,FLAGS) and
# $(call program,NAME,SOURCES) make the rules.
headers := $(wildcard include/*.h host/*/*.h fuzz/*.h)
shared := $(wildcard host/common/*.c host/reference/*.c)

objects = $(2:%.c=$(host)/$(1)/%.o)

define flavour
$(host)/$(1)/%.o: %.c $(headers)
	@mkdir -p $$(@D)
	$(CC) $(WARNINGS) $(CFLAGS) $(2) $(FOLDERS) -c -o $$@ $$<

$(host)/$(1)/shared.a: $(call objects,$(1),$(shared))
	rm -f $$@
	$(AR) rcs $$@ $$^
endef

define program
$(host)/$(1): $(call objects,plain,$(2)) $(host)/plain/shared.a $(library)
	$(CC) $(CFLAGS) -o $$@ $$^

$(host)/$(1)_sanitized: $(call objects,sanitized,$(2)) $(host)/sanitized/shared.a $(library)
	$(CC) $(CFLAGS) $(SANITIZE) -o $$@ $$^
endef

$(eval $(call flavour,plain,))
$(eval $(call flavour,sanitized,$(SANITIZE)))
$(eval $(call program,example,$(wildcard host/example/*.c)))
$(eval $(call program,host_test,$(wildcard host/test/*.c)))
$(eval $(call program,histories,$(wildcard host/simulator/*.c)))
$(eval $(call program,bench,$(wildcard host/bench/*.c)))
$(eval $(call program,ream,$(wildcard host/ream/*.c)))
$(eval $(call program,replay,$(wildcard fuzz/*.c)))

# ---- running and testing

# What `make soak` runs.
SEED ?= $(shell date +%s%N)
HISTORIES ?= 0

.PHONY: run example soak bench test host-test cuts-test tool-test replay

run: $(host)/ream
	$(host)/ream simulate --failures --seed 122934 --events 16 --svg $(host)/simulation.svg --force

example: $(host)/example
	$(host)/example

soak: $(host)/histories
	@$(host)/histories $(SEED) $(HISTORIES)

bench: $(host)/bench
	$(host)/bench

test:
	.ci/run

# Each program is tried plain and with sanitizers; make -j tries them side by side.
define trials
.PHONY: entries-$(1) cuts-$(1) tool-$(1)

entries-$(1): $(host)/host_test$(2)
	$(host)/host_test$(2)

cuts-$(1): $(host)/histories$(2)
	$(host)/histories$(2)

tool-$(1): $(host)/ream$(2)
	host/ream/test_ream.sh $(host)/ream$(2)
endef

$(eval $(call trials,plain,))
$(eval $(call trials,sanitized,_sanitized))

host-test: entries-plain entries-sanitized cuts-test tool-test install-test replay

# The last run is interrupted: it ends well, with what it counted.
cuts-test: cuts-plain cuts-sanitized
	timeout --preserve-status -s INT 1 $(host)/histories 1 0 > $(host)/interrupted.txt
	tail -n 1 $(host)/interrupted.txt | grep interrupted

tool-test: tool-plain tool-sanitized

# The inputs of the fuzzed target, without libFuzzer.
replay: $(host)/replay
	$(host)/replay fuzz/corpus/*

# ---- installing

VERSION := $(shell sed -n 's/^\#define REAM_LIBRARY_VERSION "\(.*\)"/\1/p' include/reamsickle.h)
PREFIX ?= /usr/local
DESTDIR ?=

# A prefix that does not start with / is meant from here. It may have spaces, but none of the characters that mean
# something else in a shell or in a pkg-config file.
prefix = $(if $(filter-out /%,$(firstword $(PREFIX))),$(CURDIR)/)$(PREFIX)
root = $(DESTDIR)$(prefix)
odd := ' " \ ` | & \#
refuse_odd = $(foreach c,$(odd),$(if $(findstring $(c),$(root)),$(error PREFIX or DESTDIR has a $(c) in it: $(root))))

.PHONY: install uninstall install-test

install: $(library) $(host)/ream
	$(refuse_odd)install -d '$(root)/include' '$(root)/lib/pkgconfig' '$(root)/bin' '$(root)/share/man/man1'
	install -m 644 include/reamsickle.h '$(root)/include/reamsickle.h'
	install -m 644 $(library) '$(root)/lib/libreamsickle.a'
	sed -e 's|@PREFIX@|$(prefix)|' -e 's|@VERSION@|$(VERSION)|' reamsickle.pc.in > target/reamsickle.pc
	install -m 644 target/reamsickle.pc '$(root)/lib/pkgconfig/reamsickle.pc'
	install -m 755 $(host)/ream '$(root)/bin/ream'
	install -m 644 man/ream.1 '$(root)/share/man/man1/ream.1'

uninstall:
	$(refuse_odd)rm -f '$(root)/include/reamsickle.h' '$(root)/lib/libreamsickle.a' \
		'$(root)/lib/pkgconfig/reamsickle.pc' '$(root)/bin/ream' '$(root)/share/man/man1/ream.1'

# Under an ordinary prefix, one with a space, one that is relative, and staged; and one that is refused.
install-test: $(library) $(host)/ream
	rm -rf target/install-test
	host/test/test_install.sh '$(CURDIR)/target/install-test/plain'
	host/test/test_install.sh '$(CURDIR)/target/install-test/with a space'
	host/test/test_install.sh target/install-test/relative
	host/test/test_install.sh /usr/local '$(CURDIR)/target/install-test/staged'
	! $(MAKE) -s install PREFIX="target/install-test/o'clock" 2> target/install-test/refused
	grep "PREFIX or DESTDIR has a ' in it" target/install-test/refused

install-test: export CC := $(CC)
install-test: export CXX := $(CXX)

# ---- fuzzing

# libFuzzer is a part of clang. The library is not instrumented, as it is native code: see fuzz/fuzz_entries.c.
FUZZ_CC ?= clang
FUZZ_TIME ?= 60
FUZZ_SANITIZE := -g -fsanitize=fuzzer,address,undefined -fno-sanitize-recover=all

fuzz := target/fuzz
fuzz_sources := $(filter-out fuzz/replay.c,$(wildcard fuzz/*.c)) $(shared)

.PHONY: fuzz corpus

$(fuzz)/found:
	mkdir -p $@

$(fuzz)/fuzz_entries: $(fuzz_sources) $(headers) $(library) | $(fuzz)/found
	@echo 'int LLVMFuzzerTestOneInput(const char *d, long n) { return d && n < 0; }' | \
		$(FUZZ_CC) -fsanitize=fuzzer,address,undefined -x c - -o $(fuzz)/probe || { \
		echo 'make fuzz needs clang with libFuzzer; on Debian: apt-get install clang libclang-rt-14-dev'; exit 1; }
	$(FUZZ_CC) $(WARNINGS) $(CFLAGS) $(FUZZ_SANITIZE) $(FOLDERS) -o $@ $(fuzz_sources) $(library)

fuzz: $(fuzz)/fuzz_entries
	$(fuzz)/fuzz_entries -max_total_time=$(FUZZ_TIME) -max_len=512 -print_final_stats=1 \
		-artifact_prefix=$(fuzz)/ $(fuzz)/found fuzz/corpus

corpus:
	rm -rf fuzz/corpus
	fuzz/make-corpus fuzz/corpus

# ---- valgrind

# Under valgrind a program is some ninety times slower, so the simulator runs fewer histories and the host test leaves
# out rounds; VALGRIND_ROUNDS=1 makes all of them, in about twenty minutes.
VALGRIND ?= valgrind --quiet --error-exitcode=1 --leak-check=full
VALGRIND_HISTORIES ?= 200
VALGRIND_ROUNDS ?= 50

.PHONY: valgrind

valgrind: $(host)/example $(host)/replay $(host)/histories $(host)/host_test
	$(VALGRIND) $(host)/example
	$(VALGRIND) $(host)/replay fuzz/corpus/*
	$(VALGRIND) $(host)/histories 1 $(VALGRIND_HISTORIES)
	$(VALGRIND) $(host)/host_test $(VALGRIND_ROUNDS)

# ---- other targets

# One module, the one that $(library) is made from, compiled by other back ends of the same clang: see cross/archive.
TARGET ?=
targets := aarch64-linux-gnu aarch64-kernel x86_64-kernel
archives := $(targets:%=target/%/libreamsickle.a)
chosen := $(if $(filter-out $(targets),$(TARGET)),unknown-target,$(TARGET:%=target/%/libreamsickle.a))

.PHONY: library unknown-target

library: $(or $(chosen),$(library))

unknown-target:
	@echo 'make library: TARGET is $(TARGET), and can be one of: $(targets)'; exit 1

target/module/module.ll: $(library) cross/keep-module
	cross/keep-module

$(archives): target/%/libreamsickle.a: target/module/module.ll cross/archive
	cross/archive $* target/module target/$*

# Bytes of stack, entry by entry and target by target.
AARCH64 ?= aarch64-linux-gnu-
all_archives := $(library) $(archives)

.PHONY: stack

stack: $(all_archives)
	@cross/needs objdump $(AARCH64)objdump
	@cross/stack $(all_archives)

stack: export AARCH64 := $(AARCH64)

# The host test and the simulator have to print for each target what they print for this one, to the byte; the simulator
# prints a line for every event, with a checksum of the region. $(call told,FOLDER,RUNNER) runs both, and
# $(call cross,TARGET,COMPILER,RUNNER) makes the rules of a target.
QEMU ?= qemu-aarch64
CROSS_ROUNDS ?= 1

define told
.PHONY: told-$(notdir $(1))

told-$(notdir $(1)): $(1)/host_test $(1)/histories
	$(2) $(1)/host_test $(CROSS_ROUNDS) > $(1)/host_test.txt
	$(2) $(1)/histories --log > $(1)/histories.txt
endef

define cross
target/$(1)/%.o: %.c $(headers)
	@mkdir -p $$(@D)
	$(2) $(WARNINGS) $(CFLAGS) $(FOLDERS) -c -o $$@ $$<

target/$(1)/host_test: $(patsubst %.c,target/$(1)/%.o,$(wildcard host/test/*.c))
target/$(1)/histories: $(patsubst %.c,target/$(1)/%.o,$(wildcard host/simulator/*.c))
target/$(1)/host_test target/$(1)/histories: $(shared:%.c=target/$(1)/%.o) target/$(1)/libreamsickle.a
	$(2) $(CFLAGS) -static -o $$@ $$(filter %.o,$$^) $$(filter %.a,$$^)

$(call told,target/$(1),$(3))

.PHONY: same-$(1)

same-$(1): told-host told-$(1)
	cmp $(host)/host_test.txt target/$(1)/host_test.txt
	cmp $(host)/histories.txt target/$(1)/histories.txt
	@tail -qn 1 target/$(1)/host_test.txt target/$(1)/histories.txt
endef

$(eval $(call told,$(host),))
$(eval $(call cross,aarch64-linux-gnu,$(AARCH64)gcc,$(QEMU)))
$(eval $(call cross,aarch64-kernel,$(AARCH64)gcc,$(QEMU)))
$(eval $(call cross,x86_64-kernel,$(CC),))

.PHONY: cross-test cross-code

cross-test:
	@cross/needs objdump $(AARCH64)gcc $(AARCH64)objdump $(QEMU)
	$(MAKE) --no-print-directory cross-code $(targets:%=same-%)

cross-code: $(all_archives)
	cross/test_module.sh target/module $(library) $(targets:%=target/%)
	cross/test_kernel.sh target/x86_64-kernel
	cross/test_kernel.sh target/aarch64-kernel
	cross/test_header.sh target/x86_64-kernel/libreamsickle.a $(CC)
	cross/test_header.sh target/aarch64-kernel/libreamsickle.a $(AARCH64)gcc
	cross/test_stack.sh $(all_archives)

cross-code: export AARCH64 := $(AARCH64)
