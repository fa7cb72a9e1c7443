/* Where Debian's Lua looks for libraries, of which there are none here. */
#define DEB_HOST_MULTIARCH "none"
