# Builds the library and the program where they are missing or old, installs them, and measures the library's footprint.
PREFIX = /usr/local
LIBRARY = crates/deque/out/libdeque.a
PROGRAM = crates/lane/out/lane
SOURCES = crates.txt $(shell find crates -path '*/out' -prune -o \( -name '*.rt' -o -name '*.antt' \) -print)
INSTALL = install
VERSION = $(shell sed -n 's/^.define LANE_VERSION "\(.*\)"/\1/p' include/lane.h)
# In shell words, as a path may have spaces: where it is used, and where it is put.
PLACE = place=$$(realpath -ms -- "$$PREFIX") && root=$$DESTDIR$$place
INSTALLED = lib/liblane.a lib/pkgconfig/lane.pc include/lane.h bin/lane share/man/man1/lane.1

export PREFIX DESTDIR
.PHONY: all library program install uninstall footprint
all: library program
library: $(LIBRARY)
program: $(PROGRAM)

# rt proves what they stand on, too; it skips what is proved. To build the program is to run it, here on no lines.
$(LIBRARY): $(SOURCES)
	cd crates/deque && rt lib --jobs 4 </dev/null
	@touch $@

$(PROGRAM): $(SOURCES)
	cd crates/lane && rt run --jobs 4 </dev/null
	@touch $@

# The library is installed under its header's name.
install: $(LIBRARY) $(PROGRAM)
	$(PLACE) && \
	$(INSTALL) -d "$$root/lib/pkgconfig" "$$root/include" "$$root/bin" "$$root/share/man/man1" && \
	$(INSTALL) -m 644 $(LIBRARY) "$$root/lib/liblane.a" && \
	$(INSTALL) -m 644 include/lane.h "$$root/include/lane.h" && \
	$(INSTALL) -m 755 $(PROGRAM) "$$root/bin/lane" && \
	$(INSTALL) -m 644 docs/lane.1 "$$root/share/man/man1/lane.1" && \
	prefix=$$(printf '%s' "$$place" | sed 's/[&|\\]/\\&/g') && \
	sed -e "s|@PREFIX@|$$prefix|" -e 's|@VERSION@|$(VERSION)|' lane.pc.in > "$$root/lib/pkgconfig/lane.pc"

uninstall:
	$(PLACE) && cd "$$root" && rm -f $(INSTALLED)

footprint: $(LIBRARY)
	@size $(LIBRARY)
	@mkdir -p target/tests
	@$(CC) -std=c99 -O2 -I include -o target/tests/stack tests/c/stack.c $(LIBRARY)
	@target/tests/stack
