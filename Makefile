# make            the library for C, lister and headcount, through their proofs: target/staticlib/libboard.a, target/bin
# make proofs     proves every crate, those of the theorem too
# make test       the whole gate: proofs from nothing, must-fail edits, tests from outside
# make demo       two days at the desk with a power cut each; CUTS=all tries every store, SEED=n another two days
# make bench      the library against the same rules in C, SQLite and LMDB: tables and a plot in target/bench
# make install    copies library, header, pkg-config file, both programs and man pages below PREFIX, behind DESTDIR
# make uninstall  takes them away again
# make clean      removes what was built
SHELL := /bin/bash
.SHELLFLAGS := -o pipefail -c

VERSION := 0.9.0
# Where things are installed, by GNU's names or in capitals.
PREFIX ?= /usr/local
BINDIR ?= $(exec_prefix)/bin
LIBDIR ?= $(exec_prefix)/lib
INCLUDEDIR ?= $(prefix)/include
MANDIR ?= $(prefix)/share/man
DESTDIR ?=
prefix = $(PREFIX)
exec_prefix = $(prefix)
bindir = $(BINDIR)
libdir = $(LIBDIR)
includedir = $(INCLUDEDIR)
mandir = $(MANDIR)
ifeq ($(origin CC),default)
CC = gcc
endif
CFLAGS ?= -O2 -Wall -Wextra
CUTS ?= one
SEED ?=
export BEGAN := $(shell date +%s)

library := target/staticlib/libboard.a
programs := target/bin/lister target/bin/headcount
man1 := man/lister.1 man/headcount.1
man3 := man/board.3
demo_files := demo/demo.c demo/cuts.c demo/desk.c demo/early.c
compile = $(CC) $(CPPFLAGS) $(CFLAGS) $(LDFLAGS) -I include
# The files of a crate and of all that it stands on.
sources = crates.txt $(shell find $(addprefix crates/,$(1) $(shell sed -n 's/^$(1)\( staticlib\)*: *//p' crates.txt)) \
	-name out -prune -o \( -name '*.rt' -o -name '*.antt' \) -print 2> /dev/null)
# A folder to install into, as a word of the shell.
quoted = '$(subst ','\'',$(1))'
into = $(call quoted,$(DESTDIR)$(1))
# @NAME@ in board.pc.in becomes the value of NAME.
fill = -e $(call quoted,s|@$(1)@|$(subst |,\|,$(subst &,\&,$(subst \,\\,$($(1)))))|)

.PHONY: all lib proofs test demo bench bench-docs install uninstall clean needs-demo needs-bench
.DELETE_ON_ERROR:
.NOTPARALLEL:

all: $(library) $(programs)

lib: $(library)

$(library): $(call sources,board_c) c/exported.c include/board.h tools/staticlib
	@tools/need gcc=gcc ar=binutils stdio.h=libc6-dev
	@echo 'Proving and compiling the library: some minutes from nothing; what has not changed is not proved again.'
	@mkdir -p target
	@exec tools/alone tools/staticlib > target/staticlib.log
	@touch $@
	@echo 'Built $@; its C view is include/board.h.'

define program
target/bin/$(1): $(call sources,$(1))
	@echo 'Proving and compiling $(1) and what it stands on.'
	@exec tools/alone tools/prove $(1)
	@mkdir -p $$(@D)
	@cp crates/$(1)/out/$(1) $$@
endef
$(foreach name,$(notdir $(programs)),$(eval $(call program,$(name))))

proofs:
	@exec tools/alone tools/prove
	@echo 'Every crate is proved, and with them the theorem of crates/guarantee.'

test:
	@exec tools/alone .ci/run

target/demo/demo: $(demo_files) demo/cuts.h demo/desk.h bench/byhand.c bench/byhand.h include/board.h $(library)
	@mkdir -p $(@D)
	@$(compile) $(demo_files) $(library) -o $@

# What is missing is said before the minutes of proof.
needs-demo:
	@tools/need gcc=gcc stdio.h=libc6-dev

demo: needs-demo target/demo/demo
	@target/demo/demo --cuts $(CUTS) $(if $(SEED),--seed $(SEED))

target/bench/%: bench/%.c bench/measure.h bench/byhand.c bench/byhand.h include/board.h $(library)
	@mkdir -p $(@D)
	@$(compile) -D_GNU_SOURCE $< bench/byhand.c $(library) -lsqlite3 -llmdb -o $@

needs-bench:
	@tools/need gcc=gcc stdio.h=libc6-dev sqlite3.h=libsqlite3-dev lmdb.h=liblmdb-dev valgrind=valgrind \
		valgrind/callgrind.h=valgrind

bench: needs-bench target/bench/bench target/bench/durable
	@bench/run target/bench

# The tables and the plot of the last run become those of docs/BENCHMARKS.md.
bench-docs:
	@bench/report target/bench --docs

install:
	$(if $(shell $(MAKE) -q $(library) $(programs) && echo built),,$(error run make first: what is to be installed is \
		not built, or older than its source))
	install -d $(call into,$(libdir)/pkgconfig) $(call into,$(includedir)) $(call into,$(bindir)) \
		$(call into,$(mandir)/man1) $(call into,$(mandir)/man3)
	install -m 644 $(library) $(call into,$(libdir))
	install -m 644 include/board.h $(call into,$(includedir))
	sed $(foreach name,prefix libdir includedir VERSION,$(call fill,$(name))) board.pc.in | \
		install -m 644 /dev/stdin $(call into,$(libdir)/pkgconfig/board.pc)
	install -m 755 $(programs) $(call into,$(bindir))
	install -m 644 $(man1) $(call into,$(mandir)/man1)
	install -m 644 $(man3) $(call into,$(mandir)/man3)

uninstall:
	rm -f $(call into,$(libdir)/libboard.a) $(call into,$(libdir)/pkgconfig/board.pc)
	rm -f $(call into,$(includedir)/board.h)
	rm -f $(foreach name,$(notdir $(programs)),$(call into,$(bindir)/$(name)))
	rm -f $(foreach name,$(notdir $(man1)),$(call into,$(mandir)/man1/$(name)))
	rm -f $(foreach name,$(notdir $(man3)),$(call into,$(mandir)/man3/$(name)))

clean:
	@exec tools/alone rm -rf target crates/*/out
