#include "width.h"
int height;
