/*
 * The machine, for the routines of gcc's soft-fp: words of 32 bits, big endian. There is no register for modes and flags, so
 * numbers are rounded to the nearest, ties to even, and no exception is kept. What is no number is quiet where the highest bit
 * of its fraction is set, as the SPARC manual has it; one that an operation makes has all bits of its fraction set.
 */
#define _FP_W_TYPE_SIZE 32
#define _FP_W_TYPE unsigned int
#define _FP_WS_TYPE signed int
#define _FP_I_TYPE int

#define _FP_MUL_MEAT_S(R, X, Y) _FP_MUL_MEAT_1_wide(_FP_WFRACBITS_S, R, X, Y, umul_ppmm)
#define _FP_MUL_MEAT_D(R, X, Y) _FP_MUL_MEAT_2_wide(_FP_WFRACBITS_D, R, X, Y, umul_ppmm)

#define _FP_DIV_MEAT_S(R, X, Y) _FP_DIV_MEAT_1_udiv_norm(S, R, X, Y)
#define _FP_DIV_MEAT_D(R, X, Y) _FP_DIV_MEAT_2_udiv(D, R, X, Y)

#define _FP_NANFRAC_S ((_FP_QNANBIT_S << 1) - 1)
#define _FP_NANFRAC_D ((_FP_QNANBIT_D << 1) - 1), -1
#define _FP_NANSIGN_S 0
#define _FP_NANSIGN_D 0

#define _FP_KEEPNANFRACP 1
#define _FP_QNANNEGATEDP 0

/* Of two operands that are no numbers the second one is the result, but a signalling one goes before a quiet one. */
#define XM_IS_QUIET(format, X) ((_FP_FRAC_HIGH_RAW_##format(X) & _FP_QNANBIT_##format) != 0)
#define XM_TAKE(words, R, X) (R##_s = X##_s, _FP_FRAC_COPY_##words(R, X))
#define _FP_CHOOSENAN(format, words, R, X, Y, operation)       \
    do {                                                       \
        if (XM_IS_QUIET(format, Y) && !XM_IS_QUIET(format, X)) \
            XM_TAKE(words, R, X);                              \
        else                                                   \
            XM_TAKE(words, R, Y);                              \
        R##_c = FP_CLS_NAN;                                    \
    } while (0)

/* A subnormal result is found to be tiny before it is rounded. */
#define _FP_TININESS_AFTER_ROUNDING 0

#define __LITTLE_ENDIAN 1234
#define __BIG_ENDIAN 4321
#define __BYTE_ORDER __BIG_ENDIAN

#define strong_alias(name, alias_name) extern __typeof(name) alias_name __attribute__((alias(#name)));

typedef int __gcc_CMPtype __attribute__((mode(__libgcc_cmp_return__)));
#define CMPtype __gcc_CMPtype
