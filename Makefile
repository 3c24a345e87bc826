# make: proves and builds the program. `make help` lists the rest.

PREFIX = /usr/local
TO = $(DESTDIR)$(PREFIX)
SHARE = $(TO)/share
DOC = $(SHARE)/doc/racl
PAGES = out/install
LIBRARIES = out/library

.PHONY: build library check check-bridge check-live check-import prove bench install install-program install-libraries uninstall help

build:
	@tools/build

library:
	@tools/library

check:
	@tests/quick

check-bridge:
	@tests/bridge

check-live:
	@tests/live_wires

check-import:
	@tests/import_kernel

prove:
	@.ci/run

bench: build
	@bench/measure_filter ./racl quick
	@bench/measure_sizes ./racl quick
	@bench/measure_live ./racl quick

# What is built is installed, and what isn't is told.
install:
	@top=. && . tools/built.sh && some= && \
	if is_built; then $(MAKE) install-program && some=1; \
	else echo "make install: no program is built of these sources; make proves and builds it" >&2; fi && \
	if are_libraries_built; then $(MAKE) install-libraries && some=1; \
	else echo "make install: no libraries are built of these sources; make library proves and builds them" >&2; fi && \
	[ -n "$$some" ]

install-program:
	mkdir -p $(PAGES)
	install/pages ./racl $(PAGES)
	install -D -m 755 crates/racl/out/racl $(TO)/libexec/racl/racl
	install -m 644 install/run.sh $(TO)/libexec/racl/run.sh
	install -d $(TO)/bin
	install -m 755 install/racl racl-page racl-import $(TO)/bin
	install -d $(TO)/libexec/racl/racl_import
	install -m 644 racl_import/*.py $(TO)/libexec/racl/racl_import
	install -d $(SHARE)/man/man1
	install -m 644 $(PAGES)/racl.1 $(PAGES)/racl-import.1 $(PAGES)/racl-page.1 $(SHARE)/man/man1
	install -D -m 644 $(PAGES)/racl.bash $(SHARE)/bash-completion/completions/racl
	install -D -m 644 $(PAGES)/_racl $(SHARE)/zsh/site-functions/_racl
	install/documents $(DOC)

install-libraries:
	install -d $(TO)/include $(TO)/lib/pkgconfig
	install -m 644 include/racl.h include/bihash.h $(TO)/include
	install -m 644 $(LIBRARIES)/libracl.a $(LIBRARIES)/libbihash.a $(TO)/lib
	cp -P $(LIBRARIES)/libracl.so* $(LIBRARIES)/libbihash.so* $(TO)/lib
	for it in racl bihash; do sed 's|^prefix=.*|prefix=$(PREFIX)|' $(LIBRARIES)/$$it.pc >$(TO)/lib/pkgconfig/$$it.pc; done
	[ -n "$(DESTDIR)" ] || ldconfig 2>/dev/null || true

uninstall:
	rm -f $(TO)/bin/racl $(TO)/bin/racl-page $(TO)/bin/racl-import $(SHARE)/bash-completion/completions/racl $(SHARE)/zsh/site-functions/_racl
	rm -f $(SHARE)/man/man1/racl.1 $(SHARE)/man/man1/racl-import.1 $(SHARE)/man/man1/racl-page.1
	rm -f $(TO)/include/racl.h $(TO)/include/bihash.h $(TO)/lib/libracl.* $(TO)/lib/libbihash.*
	rm -f $(TO)/lib/pkgconfig/racl.pc $(TO)/lib/pkgconfig/bihash.pc
	rm -rf $(TO)/libexec/racl $(DOC)

help:
	@echo "make               proves and builds the program"
	@echo "make library       proves and builds the libraries for C"
	@echo "make check         runs the tests, which need no proof"
	@echo "make check-bridge  runs a bridge over the library between network namespaces; it needs root"
	@echo "make check-live    runs the program on what tcpdump captures between network namespaces; it needs root"
	@echo "make check-import  compares the kernel with the policies that are imported of its rules; it needs root"
	@echo "make prove         the whole gate: proofs, edits that must be refused, tests, checks"
	@echo "make bench         times the program beside a filter in plain Rust"
	@echo "make install       puts what is built of both below PREFIX (/usr/local)"
	@echo "make uninstall     removes it"
	@echo "make help          lists these"
