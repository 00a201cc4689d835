/* Sixteen coverings with different directions, a list for tetrolet_decompose_listed.

   Document 000, section 5 (a), takes 16 coverings of different directions in place of all 117, and shows them in a figure that its text does not
   have. This is our reading of it: a covering has a direction where a half turn of the block leaves it as it is and a quarter turn does not. There
   are sixteen of that kind, and a turn or a reflection of one is one of them again, so no direction is preferred. pictures/choice.c checks it. */
#ifndef SIXTEEN_H
#define SIXTEEN_H

#include <stdint.h>

static const uint8_t sixteen[16] = { 1, 5, 10, 17, 25, 28, 57, 60, 65, 68, 79, 86, 105, 108, 109, 117 };

#endif
