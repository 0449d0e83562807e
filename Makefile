.PHONY: run tdea test bench lib install clean

PREFIX ?= /usr/local

# Proves, builds and runs the main program.
run:
	cd crates/demo && rt run

# Proves and builds the technician's program, crates/tdea/out/tdea, and runs its stored job.
tdea:
	cd crates/tdea && rt run < stdin

# The gate.
test:
	bash .ci/run

# Times against OpenSSL, and Botan where it is installed, in one run.
bench:
	bash bench/run

# The library for C: build/lib/libtdea.a, build/include/tdea.h and build/lib/pkgconfig/tdea.pc.
lib:
	bash tools/make_lib

# The same three files under PREFIX.
install: lib
	install -d "$(DESTDIR)$(PREFIX)/include" "$(DESTDIR)$(PREFIX)/lib/pkgconfig"
	install -m 644 build/include/tdea.h "$(DESTDIR)$(PREFIX)/include/tdea.h"
	install -m 644 build/lib/libtdea.a "$(DESTDIR)$(PREFIX)/lib/libtdea.a"
	install -m 644 build/lib/pkgconfig/tdea.pc "$(DESTDIR)$(PREFIX)/lib/pkgconfig/tdea.pc"

clean:
	rm -rf build crates/*/out
