#include "hello/hello.h"

int main() { return hello(); }
