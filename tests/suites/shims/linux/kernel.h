/* Takes the place of a header of the kernel. */
#include "../kernel.h"
