# The library for programs in C, C++, Rust and Python (docs/C.md), and a decoder for sigrok over it (docs/BENCH.md).
#
#     make                        builds target/package: libhumtrellis.a, libhumtrellis.so and what pkg-config and CMake read
#     make install PREFIX=folder  installs it, in /usr/local where nothing is said; DESTDIR=folder puts a folder before that;
#                                 SIGROKDECODE_DIR, if it is set, is the folder of decoders instead of the one under PREFIX
#     make uninstall PREFIX=folder
#     make check                  installs it in a scratch folder, and builds and runs tests against that, outside this repository
#     make LIB=path/libcabi.a ..  takes an archive that is already built; without it `rt lib` in crates/cabi proves and builds one, which takes minutes
PREFIX ?= /usr/local
PACKAGE := target/package
VERSION := $(shell sed -n 's/^\#define HUMTRELLIS_VERSION \([0-9]*\) .*/\1/p' include/humtrellis.h)
SHARED := libhumtrellis.so.$(VERSION)
CMAKE_FILES := humtrellis-config.cmake humtrellis-config-version.cmake
ROOT = $(DESTDIR)$(PREFIX)
DECODER = $(DESTDIR)$(or $(SIGROKDECODE_DIR),$(PREFIX)/share/libsigrokdecode/decoders)/pcf8532

.PHONY: all apart install uninstall check help FORCE
all: $(addprefix $(PACKAGE)/, libhumtrellis.a $(SHARED) humtrellis.pc $(CMAKE_FILES))

ifndef LIB
LIB := target/staticlib/libcabi.a
$(LIB): crates.txt $(shell find crates -name out -prune -o -type f -print)
	@command -v rt >/dev/null || { echo 'make: the Rattle toolchain (rt) is not on PATH; LIB=path/libcabi.a takes an archive that is already built' >&2; exit 1; }
	cd crates/cabi && rt lib
	mkdir -p $(@D)
	cp crates/cabi/out/libcabi.a $@
endif

# Compared, since another LIB may be older than the copy.
$(PACKAGE)/libhumtrellis.a: $(LIB) FORCE
	@mkdir -p $(PACKAGE)
	cmp -s '$<' $@ || cp '$<' $@

# The archive's global names are the calls alone, so the shared object's are (tests/packaging).
$(PACKAGE)/$(SHARED): $(PACKAGE)/libhumtrellis.a
	$(CC) -shared -Wl,-soname,$(SHARED) -Wl,--no-undefined -Wl,--whole-archive $< -Wl,--no-whole-archive $(LDFLAGS) -o $@
	ln -sf $(SHARED) $(PACKAGE)/libhumtrellis.so

$(PACKAGE)/%: packaging/%.in include/humtrellis.h
	@mkdir -p $(PACKAGE)
	sed 's/@VERSION@/$(VERSION)/' $< >$@

# A SIGROKDECODE_DIR that runs the decoder from here would have uninstall remove it.
apart:
	@if test tools/sigrok/pcf8532 -ef '$(DECODER)'; then echo 'make: SIGROKDECODE_DIR is the folder that the decoder is installed from; unset it, or name another' >&2; exit 1; fi

install: all apart
	install -d '$(ROOT)/include' '$(ROOT)/lib/pkgconfig' '$(ROOT)/lib/cmake/humtrellis' '$(ROOT)/share/doc/humtrellis'
	install -m 644 include/humtrellis.h '$(ROOT)/include'
	install -m 644 $(PACKAGE)/libhumtrellis.a '$(ROOT)/lib'
	install -m 755 $(PACKAGE)/$(SHARED) '$(ROOT)/lib'
	ln -sf $(SHARED) '$(ROOT)/lib/libhumtrellis.so'
	install -m 644 $(PACKAGE)/humtrellis.pc '$(ROOT)/lib/pkgconfig'
	install -m 644 $(addprefix $(PACKAGE)/, $(CMAKE_FILES)) '$(ROOT)/lib/cmake/humtrellis'
	install -m 644 LICENSE docs/C.md '$(ROOT)/share/doc/humtrellis'
	install -d '$(DECODER)/buslog'
	install -m 644 tools/sigrok/pcf8532/*.py bindings/python/humtrellis.py '$(DECODER)'
	install -m 644 $(addprefix tools/buslog/, __init__.py check.py log.py text.py) '$(DECODER)/buslog'
	install -m 755 $(PACKAGE)/$(SHARED) '$(DECODER)'

uninstall: apart
	cd '$(ROOT)' && rm -rf include/humtrellis.h lib/libhumtrellis.a lib/libhumtrellis.so lib/$(SHARED) lib/pkgconfig/humtrellis.pc lib/cmake/humtrellis share/doc/humtrellis
	rm -rf '$(DECODER)'

check: all
	tests/packaging

help:
	@sed -n '/^#/!q; s/^#[ ]\{0,1\}//p' Makefile
