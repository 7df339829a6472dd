#include "list.h"

int main(void) { return length(empty()); }
