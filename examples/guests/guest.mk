# How a guest without the C library is made of C, with Debian's cross packages (gcc-sparc64-linux-gnu, which brings the binutils).
# Nothing is linked but what is named: the 32-bit libgcc of these packages has instructions that V8 lacks.
# Whoever includes this says where the folder is, by GUESTS.
CROSS = sparc64-linux-gnu-
LEVEL = -O2
# With -g an address has its line; the images are the same without it.
GUEST_CFLAGS = $(LEVEL) -g -std=c11 -Wall -Wextra -m32 -mcpu=v8 -msoft-float -ffreestanding -fno-pic -fno-pie \
    -fno-stack-protector -fno-asynchronous-unwind-tables
GUEST_LDFLAGS = -m32 -nostdlib -static -no-pie -Wl,-m,elf32_sparc -Wl,--build-id=none -Wl,-n \
    -Wl,--fatal-warnings

# Where a program is to be: `bare`, or a description and the number of a partition, whose areas it gets.
PLACE = bare
PLACES = "$$($(GUESTS)/areas $(PLACE))"

START = $(GUESTS)/start.S $(GUESTS)/start.c $(GUESTS)/bare.c
LAYOUT = $(GUESTS)/guarded.ld

# $(call link,SOURCES): links $@ of these sources, the linker script among them, and writes to $@.d what it was made of, the
# headers too, so that a change of one of these links it again
link = places=$(PLACES) && \
    $(CROSS)gcc $(GUEST_CFLAGS) -I$(GUESTS) $(GUEST_LDFLAGS) $$places \
    -T $(filter %.ld,$(1)) $(filter-out %.ld %.h,$(1)) -o $@ && $(GUESTS)/copy_data $@ && \
    { echo '$@: $(filter %.a %.ld,$(1)) $(filter %.xml,$(PLACE))'; \
    $(CROSS)gcc $(GUEST_CFLAGS) -I$(GUESTS) -MM -MP -MT $@ $(filter %.c %.S,$(1)); } > $@.d

# A raw image, for `bare`: all but the variables, which the start-up code makes.
%.bin: %.elf
	$(CROSS)objcopy -O binary -R .data $< $@
	chmod a-x $@

# These rules are not to name the first target.
goal := $(.DEFAULT_GOAL)
-include $(wildcard *.elf.d build/*.elf.d)
.DEFAULT_GOAL := $(goal)
