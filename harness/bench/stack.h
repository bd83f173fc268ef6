/* Stack: the most that each call of the library uses. */
#ifndef STACK_H
#define STACK_H

/* Prints a line for each call, over several shapes. Gives 0. */
int stack_most(void);

#endif
