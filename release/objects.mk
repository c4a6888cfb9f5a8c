# Links age_tool and libagefile of the proved objects in objects/, for the processor that CC makes programs for, and installs them:
#
#     make && make install [PREFIX=/usr/local] [DESTDIR=ROOT] [LIBDIR=PREFIX/lib]
#
# It needs a C compiler with glibc, and make. What is in objects/ was compiled in the run that proved it; before anything is linked it is
# compared with SHA256SUMS, and nothing is if a byte of it is another. The C files in bindings/c are tested, and not proved.
PREFIX = /usr/local
BINDIR = $(PREFIX)/bin
LIBDIR = $(PREFIX)/lib
INCLUDEDIR = $(PREFIX)/include
DATADIR = $(PREFIX)/share
CFLAGS = -O2
HARD = -Wl,--gc-sections,-z,relro,-z,now,-z,noexecstack

PROCESSOR := $(firstword $(subst -, ,$(shell $(CC) -dumpmachine)))
VERSION := $(shell cat VERSION)
PROVED = objects/$(PROCESSOR)
ifeq (,$(filter %clean,$(MAKECMDGOALS))$(wildcard $(PROVED)/age_tool.o))
$(error there are no objects for $(PROCESSOR))
endif
C = bindings/c
# What the library is made of beside the proved code, and what the program takes of the kit's C.
PARTS = agefile.o once.o look.o names.o processor.o heap.o
OWN = kit.o heap.o

all: age_tool libagefile.a libagefile.so.2

checked:
	@sha256sum --check --quiet SHA256SUMS || { echo 'these objects are not the ones that were proved: nothing is linked' >&2; exit 1; }

%.o: $(C)/%.c | checked
	$(CC) -std=c11 $(CPPFLAGS) $(CFLAGS) -fPIC -c $< -o $@

age_tool: $(PROVED)/age_tool.o $(OWN) | checked
	$(CC) -pie -s $(CFLAGS) $(LDFLAGS) $(HARD) -o $@ $^

libagefile.a: $(PROVED)/age_c.a $(PARTS) | checked
	cp $(PROVED)/age_c.a $@
	chmod u+w $@
	$(AR) rcsD $@ $(PARTS)

libagefile.so.2: libagefile.a
	echo 'AGEFILE_2 { global: agefile_*; local: *; };' >exports
	$(CC) -shared -s $(CFLAGS) $(LDFLAGS) -Wl,-soname,$@,--version-script,exports,--no-undefined,-z,now -o $@ -Wl,--whole-archive $< -Wl,--no-whole-archive

# Beside the program stands what its proof says, with the sum of what was linked here.
install: all
	install -d "$(DESTDIR)$(BINDIR)" "$(DESTDIR)$(LIBDIR)/pkgconfig" "$(DESTDIR)$(LIBDIR)/cmake/agefile" "$(DESTDIR)$(INCLUDEDIR)" "$(DESTDIR)$(DATADIR)"
	install age_tool "$(DESTDIR)$(BINDIR)/age_tool"
	install -m 644 include/agefile.h "$(DESTDIR)$(INCLUDEDIR)/agefile.h"
	install -m 644 libagefile.a "$(DESTDIR)$(LIBDIR)/libagefile.a"
	install -m 644 libagefile.so.2 "$(DESTDIR)$(LIBDIR)/libagefile.so.2"
	ln -sf libagefile.so.2 "$(DESTDIR)$(LIBDIR)/libagefile.so"
	sed 's|VERSION|$(VERSION)|; s|PREFIX|$(PREFIX)|; s|LIBDIR|$(LIBDIR)|' $(C)/agefile.pc >"$(DESTDIR)$(LIBDIR)/pkgconfig/agefile.pc"
	for it in agefileConfig.cmake agefileConfigVersion.cmake; do \
	    sed "s|@VERSION@|$(VERSION)|; s|@TOP@|$$(realpath -m --relative-to='$(LIBDIR)/cmake/agefile' '$(PREFIX)')|" $(C)/$$it >"$(DESTDIR)$(LIBDIR)/cmake/agefile/$$it" || exit 1; \
	done
	cp -R share/. "$(DESTDIR)$(DATADIR)"
	sed "s|\"linked\": {}|\"linked\": {\"age_tool\": \"$$(sha256sum <age_tool | cut -d ' ' -f 1)\"}|" share/agefile/proof.json >"$(DESTDIR)$(DATADIR)/agefile/proof.json"
	ln -sf ../share/age_tool/agefile/program/__main__.py "$(DESTDIR)$(BINDIR)/agefile"

clean:
	rm -f age_tool libagefile.a libagefile.so.2 exports *.o

.PHONY: all checked install clean
