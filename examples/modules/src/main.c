#include "shapes.h"
int area;
int *side = &width;
