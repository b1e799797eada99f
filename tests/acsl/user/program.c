/* A program that includes pokit.h, as its users do: Frama-C has to read it. */
#include "../../../include/pokit.h"
