/*
 * A program that uses the shared library alone.
 */
#include "robot.h"
#include <stdio.h>

int main(void)
{
    printf("bundles: %d\n", robot_bundles());
    return 0;
}
