#include <stddef.h>
#include <stdio.h>

#include "list.h"

int main(void)
{
    struct list two = {2, NULL}, list = {40, &two};
    printf("%d\n", sum(&list));
    return 0;
}
