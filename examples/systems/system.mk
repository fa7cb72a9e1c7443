# What the Makefiles of the systems have in common. Each names its PROGRAMS, and the partition of each by PLACE.
#   make          links the programs, without symbols
#   make symbols  links them with symbols in build/, for objdump
#   make native   what those that are in NATIVE print as programs of this machine, by NATIVE_FLAGS, with INPUT
GUESTS = ../../guests
include $(GUESTS)/guest.mk
comma = ,

# Small code.
LEVEL = -Os

LINES = $(GUESTS)/xm.h $(GUESTS)/lines.h
LINKED = $(call link,$(1) $(filter %.S %.c %.a %.ld,$^))

all: $(PROGRAMS:%=%.elf)

symbols: $(PROGRAMS:%=build/%.elf)

%.elf: %.c $(LINES) $(START) $(LAYOUT) build/routines.a Makefile ../system.mk
	$(call LINKED,-Wl$(comma)-s)
	chmod a-x $@

build/%.elf: %.c $(LINES) $(START) $(LAYOUT) build/routines.a Makefile ../system.mk
	$(call LINKED)

# Of an archive only what is called for is linked.
build/routines.a: $(GUESTS)/routines.c | build
	$(CROSS)gcc $(GUEST_CFLAGS) -c $< -o build/routines.o
	rm -f $@
	$(CROSS)ar rcD $@ build/routines.o

native: $(NATIVE:%=%.txt)

INPUT = /dev/null
%.txt: build/%.native FORCE
	./$< < $(INPUT) > $@

build/%.native: %.c ../native/xm.h $(GUESTS)/native/xm.h $(GUESTS)/lines.h | build
	$(CC) -O2 -std=c11 -Wall -Wextra -Wno-pointer-to-int-cast $(NATIVE_FLAGS) -I../native -I$(GUESTS) $< -o $@

build:
	mkdir -p $@

clean:
	rm -rf build

.PHONY: all symbols native clean FORCE
