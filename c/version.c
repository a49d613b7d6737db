/* The library's own version, by a call: a program that loads a shared library sees which one it got. */
#include <asternhaken.h>

uint32_t asternhaken_version(void) { return ASTERNHAKEN_VERSION_NUMBER; }
