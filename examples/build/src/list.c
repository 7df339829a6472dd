#include "list.h"

int length(struct list l) { return l.count; }
