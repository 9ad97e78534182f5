# make test: everything that the gate checks. make run: builds explore and answers the sample scenes; make run SCENE=file answers a file.
# make install PREFIX=dir: the command, its man page and completion, header, archive and pkg-config file. make fuzz SECONDS=n: fresh scenes and inputs for so long.
# make sqlite, make postgres: the extensions for databases; make postgres-install puts the second where the server finds it. make sql-setup: the packages for both.
# make wrong: the wrong programs that the gate leaves out; make wrong CRATES="a b": those of these crates.
.PHONY: test run archive install sqlite postgres postgres-install sql-setup fuzz wrong tools pictures bench registers fmt clean

test:
	@bash tests/gate

# The proved programs, and the archive for C: copies of what rt builds; tools/prove says how far the proofs have come
sources := crates.txt $(shell find crates -name out -prune -o \( -name '*.rt' -o -name '*.antt' \) -print)

target/bin/explore target/bin/test_sides: target/bin/%: $(sources)
	@tools/prove $*

archive: target/staticlib/libkarvoiss.a

target/staticlib/libkarvoiss.a: $(sources)
	@tools/prove karvoiss

# Where a shell, man and a C build find them; DESTDIR is put before PREFIX for packages
PREFIX ?= /usr/local
prefix := $(abspath $(PREFIX))

install: archive target/tools/karvoiss
	@install -d $(DESTDIR)$(prefix)/include $(DESTDIR)$(prefix)/lib/pkgconfig
	@install -D -m 755 target/tools/karvoiss $(DESTDIR)$(prefix)/bin/karvoiss
	@install -D -m 644 docs/karvoiss.1 $(DESTDIR)$(prefix)/share/man/man1/karvoiss.1
	@install -D -m 644 tools/karvoiss/completion.bash $(DESTDIR)$(prefix)/share/bash-completion/completions/karvoiss
	@install -m 644 include/karvoiss.h $(DESTDIR)$(prefix)/include
	@install -m 644 target/staticlib/libkarvoiss.a $(DESTDIR)$(prefix)/lib
	@sed 's|@PREFIX@|$(prefix)|' include/karvoiss.pc.in > $(DESTDIR)$(prefix)/lib/pkgconfig/karvoiss.pc

# The extension for SQLite, one loadable file: docs/SQL.md. Its symbols are its own, but for the one that SQLite calls
sqlite: target/sqlite/karvoiss.so

target/sqlite/karvoiss.so: sql/sqlite/karvoiss.c sql/shared.c sql/shared.h include/karvoiss.h target/staticlib/libkarvoiss.a
	@mkdir -p target/sqlite
	@cc -std=c11 -O2 -Wall -Wextra -Werror -fPIC -fvisibility=hidden -Iinclude -shared -Wl,--exclude-libs,ALL -Wl,-z,defs \
	    sql/sqlite/karvoiss.c sql/shared.c target/staticlib/libkarvoiss.a -o $@

# The extension for PostgreSQL; DESTDIR is put before the server's own folders
pgxs = $(MAKE) --no-print-directory -s -C target/postgres -f $(CURDIR)/sql/postgres/Makefile

postgres: archive
	@mkdir -p target/postgres
	@$(pgxs)

postgres-install: postgres
	@$(pgxs) install

# The packages that the two extensions are built and tried with
sql-setup:
	@sql/setup

SECONDS ?= 60
fuzz: archive target/tools/karvoiss
	@tests/fuzz $(SECONDS)

CRATES ?=
wrong:
	@tests/wrong/run $(CRATES)

ifdef SCENE
run: target/bin/explore
	@target/bin/explore < $(SCENE)
else
run: target/bin/explore target/tools/karvoiss
	@for sample in scenes/[a-l].*; do \
	    printf '%.1s ' "$$(basename $$sample)"; \
	    target/tools/karvoiss make $$sample | target/bin/explore; \
	done
endif

# The command, outside the proved crates, linked with the archive
tools: target/tools/karvoiss

target/tools/karvoiss: $(shell find tools -type f) docs/karvoiss.1 target/staticlib/libkarvoiss.a
	@tools/build

samples := $(wildcard scenes/*.wkt scenes/*.records)
# of the bytes as they are: a sample that is refused is drawn with the record at fault
pictures: target/tools/karvoiss
	@for sample in $(samples); do \
	    name=$$(basename $$sample); \
	    target/tools/karvoiss make $$sample | target/tools/karvoiss draw -o docs/scenes/$${name%.*}.svg || [ $$? -eq 2 ]; \
	done

# Times beside GEOS, after bench/setup: the measured part of docs/BENCH.md, and docs/bench.svg. Then the two calls for map viewers, and walks in portions
bench: archive
	@bench/run
	@bench/sides
	@bench/window
	@bench/walk

# Registers of real and of made data beside GEOS, after bench/setup: what docs/REGISTER.md has
registers: archive
	@bench/registers

fmt:
	@for crate in crates/*/; do (cd $$crate && rt fmt) || exit 1; done

clean:
	rm -rf target crates/*/out
