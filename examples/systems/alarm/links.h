/* The links of alarm.xml. SMOKE and DOOR go to the siren, and each has one of its number back. */
#ifndef LINKS_H
#define LINKS_H

enum { SMOKE = 0, DOOR = 1 };

/* Signals over links come to the handler from here on. */
static UNUSED void hear(xm_word links)
{
    sparc_set_tbr((xm_word)trap_entries);
    XM_clear_irqmask(links << XM_LINK);
    sparc_set_psr(XM_TRAPS_ENABLED);
}

static UNUSED void begin_line(unsigned slot)
{
    put_text("slot ");
    put_unsigned(slot);
    put_text(":");
}

#endif
