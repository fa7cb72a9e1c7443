! The table of traps of ../traps.S, with a handler of its own for `ta 3`.
#define XM_FLUSH_TRAP 0x83
#include "../traps.S"
