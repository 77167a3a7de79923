#include "colors.h"
#include "shapes.h"
int *shade = &green;
int *top = &height;
