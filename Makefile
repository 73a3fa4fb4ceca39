# Installs the library for a host in C: the headers, the archives and a pkg-config file. The archives of the card's side
# and of the vending cabinet stand beside the kernel's; who links them adds -lpersonalise and -lcabinet.
#
#     make install [PREFIX=/usr/local] [DESTDIR=]
#     make uninstall
#     make flat          target/staticlib/libhost_flat.a, the kernel's without recursion (docs/HOST.md); it is
#                        not installed
#     make tests         the archives that the Rust tests and benchmarks link beside; they are not installed
#
# An archive is proved and built by `bin/archive NAME` where it is missing or older than a crate that it has.
PREFIX = /usr/local
DESTDIR =

archive = target/staticlib/libhost.a
header = include/tripodmoon.h
flat_archive = target/staticlib/libhost_flat.a
card_archive = target/staticlib/libpersonalise.a
card_header = include/tripodmoon_personalise.h
cabinet_archive = target/staticlib/libcabinet.a
cabinet_header = include/tripodmoon_cabinet.h
test_archives = target/staticlib/libtest_reading.a target/staticlib/libtest_reading_flat.a target/staticlib/libtest_journal.a

# The three parts of the library's version, from the header.
word = $(shell sed -n 's/^.define EMV_VERSION \(0x[0-9A-Fa-f]*\)u$$/\1/p' $(header))
version = $(shell echo $$(($(word) >> 24)).$$(($(word) >> 16 & 255)).$$(($(word) >> 8 & 255)))

headers = $(DESTDIR)$(PREFIX)/include
folder = $(DESTDIR)$(PREFIX)/lib/tripodmoon
package = $(DESTDIR)$(PREFIX)/lib/pkgconfig/tripodmoon.pc
installed = '$(headers)/tripodmoon.h' '$(headers)/tripodmoon_personalise.h' '$(headers)/tripodmoon_cabinet.h' \
    '$(folder)/libhost.a' '$(folder)/libpersonalise.a' '$(folder)/libcabinet.a' '$(package)'

# The files of an archive's crates.
sources = bin/archive bin/prove crates.txt $(shell find $(addprefix crates/,$(shell bin/prove --needed $(1)_c)) -type f \
    -not -path '*/must-fail/*' -not -path 'crates/*/out/*')

.PHONY: all flat tests install uninstall

all: $(archive) $(card_archive) $(cabinet_archive)

flat: $(flat_archive)

tests: $(test_archives)

$(archive): $(call sources,host)
	bin/archive host

$(flat_archive): bin/host-flat tests/calls $(call sources,host)
	bin/host-flat

$(card_archive): $(call sources,personalise)
	bin/archive personalise

$(cabinet_archive): $(call sources,cabinet)
	bin/archive cabinet

target/staticlib/libtest_reading.a: $(call sources,test_reading)
	bin/archive test_reading

target/staticlib/libtest_reading_flat.a: $(call sources,test_reading_flat)
	bin/archive test_reading_flat

target/staticlib/libtest_journal.a: $(call sources,test_journal)
	bin/archive test_journal

install: $(archive) $(card_archive) $(cabinet_archive)
	mkdir -p '$(headers)' '$(folder)' '$(dir $(package))'
	cp $(header) '$(headers)/tripodmoon.h'
	cp $(card_header) '$(headers)/tripodmoon_personalise.h'
	cp $(cabinet_header) '$(headers)/tripodmoon_cabinet.h'
	cp $(archive) '$(folder)/libhost.a'
	cp $(card_archive) '$(folder)/libpersonalise.a'
	cp $(cabinet_archive) '$(folder)/libcabinet.a'
	printf '%s\n' 'prefix=$(PREFIX)' 'includedir=$${prefix}/include' 'libdir=$${prefix}/lib/tripodmoon' '' \
	    'Name: tripodmoon' 'Description: One contactless payment session in EMV mode, proved' 'Version: $(version)' \
	    'Cflags: -I$${includedir}' 'Libs: -L$${libdir} -lhost' >'$(package)'
	chmod 644 $(installed)

uninstall:
	rm -f $(installed)
	rmdir '$(folder)' 2>/dev/null || true
