#include "sizes.h"
int shapes;
