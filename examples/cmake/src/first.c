#include "area.h"
int *wide = &width;
int *high = &height;
