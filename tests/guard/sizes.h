/* Tries the header's sizes: at each the library takes what it refuses one above it. */
#ifndef SIZES_H
#define SIZES_H

/* Prints what does not hold. Answers how many sizes hold; others is how many do not. */
unsigned try_sizes(unsigned *others);

#endif
