# Installs the library for projects in C and C++: archive, header, pkg-config file and CMake package, with the licence.
#
#   make install PREFIX=/opt/power_policy      PREFIX is /usr/local if it is not said; DESTDIR goes before it, for who makes a package
#   make uninstall PREFIX=/opt/power_policy    removes what install wrote
#
# The archive is target/staticlib/libpower_policy.a, or in the folder POWER_POLICY_LIB. If target/staticlib has none, it is proved and written (needs rt).

PREFIX ?= /usr/local
DESTDIR ?=
POWER_POLICY_LIB ?= target/staticlib

archive := $(POWER_POLICY_LIB)/libpower_policy.a
version := $(shell sed -n 's/^.define POWER_POLICY_VERSION "\(.*\)"$$/\1/p' include/power_policy.h)
root := $(DESTDIR)$(PREFIX)
header := $(root)/include/power_policy.h
library := $(root)/lib/libpower_policy.a
pc := $(root)/lib/pkgconfig/power_policy.pc
cmake := $(root)/lib/cmake/power_policy
doc := $(root)/share/doc/power_policy

.PHONY: all install uninstall

all: $(archive)

target/staticlib/libpower_policy.a:
	@command -v rt >/dev/null || { echo "rt is not here: $@ is proved and written by the Rattle toolchain" >&2; exit 1; }
	sh tests/built.sh power_policy

install: $(archive)
	install -d "$(root)/include" "$(root)/lib/pkgconfig" "$(cmake)" "$(doc)"
	install -m 644 include/power_policy.h "$(header)"
	install -m 644 "$(archive)" "$(library)"
	install -m 644 packaging/power_policy-config.cmake "$(cmake)/power_policy-config.cmake"
	install -m 644 NOTICE "$(doc)/NOTICE"
	sed 's/@VERSION@/$(version)/' packaging/power_policy.pc.in >"$(pc)"
	sed 's/@VERSION@/$(version)/' packaging/power_policy-config-version.cmake.in >"$(cmake)/power_policy-config-version.cmake"
	chmod 644 "$(pc)" "$(cmake)/power_policy-config-version.cmake"

uninstall:
	rm -f "$(header)" "$(library)" "$(pc)" "$(doc)/NOTICE"
	rm -f "$(cmake)/power_policy-config.cmake" "$(cmake)/power_policy-config-version.cmake"
	for folder in "$(cmake)" "$(doc)"; do [ ! -d "$$folder" ] || rmdir "$$folder"; done
