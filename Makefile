# make installs what is proved below PREFIX, in DESTDIR: the program, its manual and completions; and the library for C with its
# header, whose layer on top is compiled by CC. opgp-verify is built where the headers of libcrypto are. make dist packs the same as
# a tarball, make deb as packages of Debian. bin/opgp is build/installed, which runs lib/opgp/opgp and answers --version.
PREFIX = /usr/local
# Where libraries go: a distribution of several architectures may say LIBDIR=/usr/lib/x86_64-linux-gnu.
LIBDIR = $(PREFIX)/lib
INCLUDEDIR = $(PREFIX)/include
# Where zsh looks for completions: Debian's packages have them in $(PREFIX)/share/zsh/vendor-completions.
ZSHDIR = $(PREFIX)/share/zsh/site-functions
DESTDIR =
CFLAGS = -O2
LDFLAGS =
# Who answers for the packages of make deb, as 'Name <address>'; else the author of the commit.
MAINTAINER =
bin = "$(DESTDIR)$(PREFIX)/bin"
share = "$(DESTDIR)$(PREFIX)/share"
program_lib = "$(DESTDIR)$(PREFIX)/lib"
lib = "$(DESTDIR)$(LIBDIR)"
include = "$(DESTDIR)$(INCLUDEDIR)"
zsh = "$(DESTDIR)$(ZSHDIR)"
# The folders, as the file for pkg-config names them: below its prefix where they are.
root = $(PREFIX)
named_lib = $(patsubst $(PREFIX)/%,$${prefix}/%,$(LIBDIR))
named_include = $(patsubst $(PREFIX)/%,$${prefix}/%,$(INCLUDEDIR))
# Where the libraries are made; the proved one, and the crates that it is made of.
made = out
proved = crates/opgp_c/out/libopgp_c.a
below = $(shell tac crates.txt | awk '$$1 == "opgp_c" || $$1 in on { print $$1; for (i = 2; i <= NF; i++) on[$$i ":"] }' | tr -d :)
# No octet of what is compiled depends on the folder, with -g either.
strict = -std=c11 -Wall -Wextra -Wconversion -pedantic -fPIC -fvisibility=hidden -fasynchronous-unwind-tables -Ic \
	'-ffile-prefix-map=$(CURDIR)=.'
# What opgp-verify is made of, and its other names.
of_verifier = c/opgp-verify.c $(sort $(wildcard c/verify-*.c))
names = opgp-sopv opgp-sqv opgp-gpgv
version = $(shell sed -n '/OPGP_VERSION/s/.*"\(.*\)"/\1/p' c/opgp.h)
# The version of the calls and structs, which is that of the shared library's name.
abi = $(shell sed -n 's/^\#define OPGP_ABI //p' c/opgp.h)

all: program

program:
	./opgp list < examples/rfc9580-a1.asc

library: $(made)/libopgp.a $(made)/libopgp.so.$(abi) verifier

$(proved): $(wildcard $(foreach it,$(below),crates/$(it)/src/*.rt crates/$(it)/specs/*.antt))
	build/static
	touch $@

$(made)/%.o: c/%.c c/opgp.h
	mkdir -p $(made)
	$(CC) $(strict) $(CFLAGS) -c $< -o $@

$(made)/libopgp.a: $(proved) $(made)/opgp.o $(made)/heap.o
	cp $(proved) $@
	$(AR) rsD $@ $(made)/opgp.o $(made)/heap.o

$(made)/libopgp.so.$(abi): $(made)/libopgp.a c/opgp.map
	$(CC) -shared $(LDFLAGS) -Wl,-soname,libopgp.so.$(abi) -Wl,--version-script=c/opgp.map -Wl,-z,defs -Wl,-z,relro -Wl,-z,now -o $@ \
		-Wl,--whole-archive $(made)/libopgp.a -Wl,--no-whole-archive

$(made)/opgp-verify: $(of_verifier) $(wildcard c/verify-*.h) c/opgp.h $(made)/libopgp.a
	$(CC) $(strict) $(CFLAGS) $(LDFLAGS) -pthread $(of_verifier) $(made)/libopgp.a -lcrypto -o $@

# Other programs' command lines: opgp-verify does what the name says by which it is started. (The kit wants no symbolic links in here.)
$(made)/opgp-%: $(made)/opgp-verify
	ln -f $(made)/opgp-verify $@

verifier: $(made)/libopgp.a
	@if $(CC) $(CFLAGS) -E -include openssl/core_names.h -x c /dev/null > /dev/null 2>&1; then \
		$(MAKE) --no-print-directory $(made)/opgp-verify $(names:%=$(made)/%); \
	else \
		echo 'opgp-verify is left out: the headers of libcrypto (OpenSSL 3) are wanted'; \
	fi

install: install-program install-library

install-program: program
	install -D -m 755 crates/opgp_tool/out/opgp_tool $(program_lib)/opgp/opgp
	install -D -m 755 build/installed $(bin)/opgp
	install -D -m 644 man/opgp.1 $(share)/man/man1/opgp.1
	install -D -m 644 completions/opgp.bash $(share)/bash-completion/completions/opgp
	install -D -m 644 completions/opgp.zsh $(zsh)/_opgp
	install -D -m 644 completions/opgp.fish $(share)/fish/vendor_completions.d/opgp.fish
	build/version > $(program_lib)/opgp/VERSION
	chmod 644 $(program_lib)/opgp/VERSION

install-library: library
	install -D -m 644 $(made)/libopgp.a $(lib)/libopgp.a
	install -D -m 755 $(made)/libopgp.so.$(abi) $(lib)/libopgp.so.$(abi)
	ln -sf libopgp.so.$(abi) $(lib)/libopgp.so
	install -D -m 644 c/opgp.h $(include)/opgp.h
	install -D -m 644 c/opgp.hpp $(include)/opgp.hpp
	install -D -m 644 man/libopgp.3 $(share)/man/man3/libopgp.3
	install -d $(lib)/pkgconfig
	printf '%s\n' 'prefix=$(root)' 'libdir=$(named_lib)' 'includedir=$(named_include)' 'Name: opgp' \
		'Description: OpenPGP certificates and keyrings (RFC 9580), proved' 'Version: $(version)' 'Cflags: -I$${includedir}' \
		'Libs: -L$${libdir} -lopgp' > $(lib)/pkgconfig/opgp.pc
	chmod 644 $(lib)/pkgconfig/opgp.pc
	install -d $(lib)/cmake/opgp
	sed -e 's|@abi@|$(abi)|g' -e "s|@include@|$$(realpath -ms --relative-to='$(LIBDIR)/cmake/opgp' '$(INCLUDEDIR)')|" \
		packaging/opgpConfig.cmake > $(lib)/cmake/opgp/opgpConfig.cmake
	sed -e 's|@version@|$(version)|' packaging/opgpConfigVersion.cmake > $(lib)/cmake/opgp/opgpConfigVersion.cmake
	chmod 644 $(lib)/cmake/opgp/opgpConfig.cmake $(lib)/cmake/opgp/opgpConfigVersion.cmake
	if [ -e $(made)/opgp-verify ]; then \
		install -D -m 755 $(made)/opgp-verify $(bin)/opgp-verify && \
		install -D -m 644 -t $(share)/man/man1 man/opgp-verify.1 $(names:%=man/%.1) && \
		for it in $(names); do ln -sf opgp-verify $(bin)/$$it || exit; done; \
	fi

uninstall:
	rm -f $(bin)/opgp $(program_lib)/opgp/opgp $(program_lib)/opgp/VERSION $(share)/man/man1/opgp.1 \
		$(share)/bash-completion/completions/opgp $(zsh)/_opgp $(share)/fish/vendor_completions.d/opgp.fish
	rm -f $(lib)/libopgp.a $(lib)/libopgp.so.$(abi) $(lib)/libopgp.so $(include)/opgp.h $(include)/opgp.hpp \
		$(lib)/pkgconfig/opgp.pc $(lib)/cmake/opgp/opgpConfig.cmake $(lib)/cmake/opgp/opgpConfigVersion.cmake \
		$(share)/man/man3/libopgp.3
	for it in opgp-verify $(names); do rm -f $(bin)/$$it $(share)/man/man1/$$it.1; done
	for it in $(program_lib)/opgp $(lib)/cmake/opgp; do if [ -d "$$it" ]; then rmdir --ignore-fail-on-non-empty "$$it"; fi; done

dist:
	made='$(made)' CC='$(CC)' CFLAGS='$(CFLAGS)' build/dist $(MAKE)

deb:
	made='$(made)' maintainer='$(MAINTAINER)' build/deb $(MAKE)

check:
	.ci/run

.PHONY: all program library verifier install install-program install-library uninstall dist deb check
