#include <stddef.h>

#include "list.h"

int sum(const struct list *list)
{
    int total = 0;
    for (; list != NULL; list = list->next)
        total += list->value;
    return total;
}
