/* What a detector does with the siren's answer over its LINK: a line in its next slot. */
static volatile int answered;

void handle_trap(unsigned type, struct xm_trap *trap)
{
    (void)trap;
    if (type == XM_INTERRUPT_TRAP(XM_LINK + LINK))
        answered = 1;
}

static void print_answer(unsigned slot)
{
    if (!answered)
        return;
    answered = 0;
    begin_line(slot);
    put_text(" the siren has heard");
    print_line();
}
