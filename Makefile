# The library as others link it, and the ratio lister. `rt` proves what each needs before it builds it.
PREFIX ?= /usr/local
into = $(DESTDIR)$(PREFIX)
archive = target/staticlib/liblcf.a
lister = target/bin/lister
sources = crates.txt $(shell find crates -name out -prune -o \( -name '*.rt' -o -name '*.antt' \) -print)

all: archive lister

archive: $(archive)

lister: $(lister)

$(archive): $(sources)
	cd crates/lcf_c && rt lib
	install -D -m 644 crates/lcf_c/out/liblcf_c.a $@

$(lister): $(sources)
	@mkdir -p target
	cd crates/lister && rt run </dev/null >/dev/null 2>../../target/lister.log || { cat ../../target/lister.log >&2; exit 1; }
	install -D -m 755 crates/lister/out/lister $@

install: $(archive)
	install -d '$(into)/include' '$(into)/lib/pkgconfig'
	install -m 644 include/lcf.h '$(into)/include/lcf.h'
	install -m 644 $(archive) '$(into)/lib/liblcf.a'
	sed 's|@PREFIX@|$(abspath $(PREFIX))|' lcf.pc.in >'$(into)/lib/pkgconfig/lcf.pc'

uninstall:
	rm -f '$(into)/include/lcf.h' '$(into)/lib/liblcf.a' '$(into)/lib/pkgconfig/lcf.pc'

.PHONY: all archive lister install uninstall
