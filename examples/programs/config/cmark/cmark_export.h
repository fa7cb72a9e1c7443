/* For programs that are linked as one. */
#define CMARK_EXPORT
#define CMARK_NO_EXPORT
