/* What tests/acsl/run proves: the functions of pokit.h, by the contracts of pokit.acsl.h. A byte is a char here, since
 * WP keeps char and unsigned char in two memories; of a byte pokit.h only asks whether it is a given letter. */
#include "string.h"

#include <stdint.h>
#define uint8_t char
#define POKIT_PROOF
#define POKIT_FUNCTION
#include "../../include/pokit.h"
