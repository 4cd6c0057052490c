# make run: the main job on an embedded sample. make test: everything that must pass.
# make install PREFIX=..: the header, the archive and lichenhusk.pc, for C.

.PHONY: run test host tested compared original archive install differential bench

PREFIX = /usr/local

# What a program or the archive stands on is proved before it, by as many cores as there are: rt by itself proves one crate
# after another. What was proved before, and has not changed, is not proved again.
JOBS = $(shell nproc)
below = { [ -f out/$(1) ] || rt all check --jobs $(JOBS); }

# Commands of rt, which say nothing unless one fails.
quietly = said=$$(mktemp) && { { $(1); } >"$$said" 2>&1 || { cat "$$said"; rm -f "$$said"; exit 1; }; rm -f "$$said"; }

# The command, proved and built, on document 01's dictionary and object.
run:
	@$(call quietly,cd crates/variant && $(call below,variant) && rt run </dev/null)
	@bin/variant

# First what needs Rust, so that the very last line is rt ci's own.
test: host
	@rt ci

# The host's crate, C's way to the archive, and a short comparison with the original; each where
# what it needs is there. The original is built beside the archive's proofs.
host:
	@$(MAKE) --no-print-directory -j2 archive original
	@$(MAKE) --no-print-directory -j2 -O tested compared

tested:
	@rust/run.sh host
	@rust/run.sh installed

compared:
	@rust/run.sh short

# What the comparison needs besides the archive; what is missing or fails, the comparison says.
original:
	@rust/run.sh original >/dev/null 2>&1 || true

# The archive that C and Rust link, under the name that they link it by. rt's own is for x86-64.
ifeq ($(shell uname -m),x86_64)
ARCHIVE = target/staticlib/liblichenhusk.a
archive:
	@$(call quietly,cd crates/lichenhusk_c && $(call below,liblichenhusk_c.a) && rt lib)
	@mkdir -p $(dir $(ARCHIVE))
	@cmp -s crates/lichenhusk_c/out/liblichenhusk_c.a $(ARCHIVE) || cp crates/lichenhusk_c/out/liblichenhusk_c.a $(ARCHIVE)
else
ARCHIVE = target/native/liblichenhusk.a
archive:
	@rust/native_archive.sh
endif

# Header, archive and lichenhusk.pc below PREFIX. The version is that of the host's crate.
install: archive
	@case "$(PREFIX)" in /*) ;; *) echo "PREFIX must be a full path, not $(PREFIX)" >&2; exit 1 ;; esac
	install -d "$(DESTDIR)$(PREFIX)/include" "$(DESTDIR)$(PREFIX)/lib/pkgconfig"
	install -m 644 include/lichenhusk.h "$(DESTDIR)$(PREFIX)/include"
	install -m 644 $(ARCHIVE) "$(DESTDIR)$(PREFIX)/lib"
	version=$$(sed -n 's/^version = "\(.*\)"$$/\1/p' rust/Cargo.toml) && \
	  sed -e 's|@PREFIX@|$(PREFIX)|' -e "s|@VERSION@|$$version|" include/lichenhusk.pc.in | \
	  install -m 644 /dev/stdin "$(DESTDIR)$(PREFIX)/lib/pkgconfig/lichenhusk.pc"

# The comparison on a million inputs and more.
differential: archive
	@rust/run.sh long

# Both clocks in one run.
bench: archive
	@rust/run.sh bench
