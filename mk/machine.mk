# The processor. rt compiles for x86-64, so hosts and programs are x86-64 programs. On another processor they are cross-compiled
# and run under an emulator that the kernel starts by itself. What an emulator cannot do is left out there, and said: the
# address sanitizer and valgrind. The benchmark is never emulated: it links the same code compiled for the processor at hand.
#
#   make machine           says whether this machine can build and run hosts (tools/x86-64-hosts install, as root on Debian)

MACHINE := $(shell uname -m)
NATIVE := $(filter x86_64,$(MACHINE))

ifneq ($(NATIVE),)
CC := gcc
NM := nm
CROSS :=
TIMED_ARCHIVE := $(ARCHIVE)
SANITIZE := -fsanitize=address,undefined -fno-sanitize-recover=all
else
# Debian's rustc, since Rust's library for another processor belongs to one compiler.
CC := x86_64-linux-gnu-gcc
NM := x86_64-linux-gnu-nm
CROSS := CARGO_BUILD_TARGET=x86_64-unknown-linux-gnu CARGO_TARGET_X86_64_UNKNOWN_LINUX_GNU_LINKER=$(CC) \
	RUSTC=/usr/bin/rustc RUSTDOC=/usr/bin/rustdoc
TIMED_ARCHIVE := $(HOST)/timed/libmapcache.a
SANITIZE := -fsanitize=undefined -static-libubsan -fno-sanitize-recover=all
endif
export CC

.PHONY: machine

machine:
ifneq ($(NATIVE),)
	@echo 'machine: $(MACHINE), which rt compiles for'
else
	@tools/x86-64-hosts
	@echo 'machine: $(MACHINE): hosts are built for x86-64 and run under an emulator; no address sanitizer, no valgrind'
endif
