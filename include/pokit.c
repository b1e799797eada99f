/* The functions that are inline in pokit.h, as exports of libpokit.so. */
#define POKIT_FUNCTION extern
#include "pokit.h"
