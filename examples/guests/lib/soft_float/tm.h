/* The target, for a routine of libgcc. */
#define BITS_PER_UNIT 8
#define MIN_UNITS_PER_WORD 4
#define UNITS_PER_WORD 4
#define FLOAT_TYPE_SIZE 32
#define DOUBLE_TYPE_SIZE 64
