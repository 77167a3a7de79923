#include "width.h"
int *wide_too = &width;
