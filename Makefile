# Builds the clerks' program over the proved library, and installs both. For GNU make.
CC ?= cc
CFLAGS ?= -O2 -Wall -Wextra
PREFIX ?= /usr/local
DESTDIR ?=

SOURCES = clients/c/clerk.c clients/c/desk.c
HEADERS = clients/c/desk.h include/vullades.h
LIBRARY = build/libvullades.a
SANITIZE = -g -O1 -fsanitize=address,undefined -fno-sanitize-recover=all
INTO = $(DESTDIR)$(PREFIX)

.PHONY: all test bench install uninstall clean FORCE
.DELETE_ON_ERROR:

all: $(LIBRARY) build/clerk

# rt builds a library only when each of its functions is proved; it keeps what it proved, and looks at what changed. What did
# not change is not copied, so that nothing is linked again.
build/lib%.a: FORCE
	@mkdir -p build
	cd crates/$* && rt lib
	cmp -s crates/$*/out/lib$*.a $@ || cp crates/$*/out/lib$*.a $@

build/clerk: $(SOURCES) $(HEADERS) $(LIBRARY)
	$(CC) -std=c11 -Iinclude $(CFLAGS) $(LDFLAGS) -o $@ $(SOURCES) $(LIBRARY)

build/clerk-asan: $(SOURCES) $(HEADERS) $(LIBRARY)
	gcc -std=c11 -Iinclude $(SANITIZE) -o $@ $(SOURCES) $(LIBRARY)

build/hostile: clients/c/hostile.c include/vullades.h $(LIBRARY)
	gcc -std=c11 -Iinclude $(SANITIZE) -o $@ clients/c/hostile.c $(LIBRARY)

install: all
	install -d $(INTO)/bin $(INTO)/include $(INTO)/lib/pkgconfig
	install -m 755 build/clerk $(INTO)/bin/clerk
	install -m 644 include/vullades.h $(INTO)/include/vullades.h
	install -m 644 $(LIBRARY) $(INTO)/lib/libvullades.a
	printf '%s\n' 'prefix=$(PREFIX)' 'Name: vullades' \
	  'Description: Divides estates that leave less than is owed' 'Version: 0.1.0' \
	  'Cflags: -I$${prefix}/include' 'Libs: -L$${prefix}/lib -lvullades' >$(INTO)/lib/pkgconfig/vullades.pc
	chmod 644 $(INTO)/lib/pkgconfig/vullades.pc

uninstall:
	rm -f $(INTO)/bin/clerk $(INTO)/include/vullades.h $(INTO)/lib/libvullades.a $(INTO)/lib/pkgconfig/vullades.pc

# The library and the clerks' program, driven from Rust and from C. The benchmark takes over a minute, on a machine that does
# nothing else.
test: all build/clerk-asan build/hostile
	ASAN_OPTIONS=detect_leaks=0 build/hostile
	cd clients/rust && cargo test --release --offline

bench: $(LIBRARY) build/libmeasured.a
	cd clients/rust && cargo bench --offline --features level

clean:
	rm -rf build clients/rust/target

FORCE:
