/* Prints what the self-test answers. */
#include "kmac.h"

#include <stdio.h>

int main(void)
{
    printf("%d\n", (int)kmac_self_test());
    return 0;
}
