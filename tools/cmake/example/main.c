/* Writes the text of the kernel that the build made. */
#include <stdio.h>

#include "tiled.h"

int main(void)
{
    return fputs(tiled, stdout) < 0;
}
