#include "hello/hello.h"

int hello() { return 0; }
