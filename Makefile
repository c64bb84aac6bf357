# Geyserpan: the two commands are `make run` and `make test`.
.PHONY: run test fmt lib tool install bench soak build/cg.pc
# rt proves one thing at a time.
.NOTPARALLEL:

crates := $(shell sed -n 's/^\([a-z0-9_]*\)[: ].*/\1/p' crates.txt)

PREFIX ?= /usr/local
SECONDS ?= 600

sources := crates.txt $(shell find crates \( -name must-fail -o -name out \) -prune -o -type f -print)

# Proves and builds cgrun, unless nothing of it changed, and runs the example that README.md explains.
run: build/cgrun
	@echo "examples/scene.txt, through cgrun:"
	@build/cgrun <examples/scene.txt

# A program, where `rt ci` has not left it already; rt runs what it builds.
crates/cgrun/out/cgrun: $(sources)
	@cd crates/cgrun && rt run </dev/null >/dev/null

crates/cgtool_main/out/cgtool_main: $(sources)
	@cd crates/cgtool_main && rt run -- load 0 0

build/cgrun: crates/cgrun/out/cgrun
	@mkdir -p build
	@cp $< $@

test:
	@tests/gate.sh

fmt:
	@for crate in $(crates); do (cd crates/$$crate && rt fmt) || exit 1; done

# For a host in C or C++: include/cg.h and one of these.
lib: build/libcg.a build/libcg.so build/cg.pc

# The crates whose exported functions the libraries have.
exporting := host_c load_c page_c

# Proves each and all below it, unless nothing of it changed. Each crate's archive holds one object, CRATE.o.
build/libcg.a: $(sources)
	@rm -rf build/objects $@
	@for crate in $(exporting); do \
	    (cd crates/$$crate && rt lib) && mkdir -p build/objects/$$crate && \
	    (cd build/objects/$$crate && ar x ../../../crates/$$crate/out/lib$$crate.a) || exit 1; \
	done
	@ar rcs $@ $(exporting:%=build/objects/%/*.o)

build/libcg.so: build/libcg.a
	@echo '{ global: cg_*; local: *; };' >build/cg.map
	@$(CC) -shared -o $@ -Wl,-soname,libcg.so,--version-script=build/cg.map -Wl,--whole-archive $< -Wl,--no-whole-archive

# Made each time, since PREFIX may be another one.
build/cg.pc: include/cg.pc.in
	@mkdir -p build
	@sed 's|@PREFIX@|$(PREFIX)|' $< >$@

# The program cgtool.
tool: build/cgtool

build/cgtool: crates/cgtool_main/out/cgtool_main
	@mkdir -p build
	@cp $< $@

install: lib tool
	install -d $(DESTDIR)$(PREFIX)/bin $(DESTDIR)$(PREFIX)/include $(DESTDIR)$(PREFIX)/lib/pkgconfig
	install -m 755 build/cgtool $(DESTDIR)$(PREFIX)/bin
	install -m 644 include/cg.h $(DESTDIR)$(PREFIX)/include
	install -m 644 build/libcg.a build/libcg.so $(DESTDIR)$(PREFIX)/lib
	install -m 644 build/cg.pc $(DESTDIR)$(PREFIX)/lib/pkgconfig

# Times every entry beside the second implementation and a plain copy (docs/PERFORMANCE.md).
bench: lib
	@cd bench && cargo run --release --offline --quiet

# Compares the library with the second implementation, with fresh seeds, for so many seconds.
soak: lib
	@cd tests/driver && cargo run --release --offline --quiet -- soak $(SECONDS)
