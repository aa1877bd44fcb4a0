/* What the shared library offers. */
#ifndef ROBOT_H
#define ROBOT_H

/* How many bundles a new robot has, by its region graph; below zero where the graph refuses one. */
int robot_bundles(void);

#endif
