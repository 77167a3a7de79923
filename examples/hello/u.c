#include "m.h"
int x;
