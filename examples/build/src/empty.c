#include "list.h"

struct list empty(void) { struct list l = { 0 }; return l; }
