/* What expat's own configuration would find. */
#define HAVE_MEMMOVE 1
#ifdef __sparc__
#define BYTEORDER 4321
#else
#define BYTEORDER 1234
#endif
#define XML_CONTEXT_BYTES 1024
#define XML_DTD 1
#define XML_NS 1
#define HAVE_ARC4RANDOM_BUF 1
#define PACKAGE_STRING "expat 2.5.0"
