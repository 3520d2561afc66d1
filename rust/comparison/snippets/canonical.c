/* Prints the second readout of a proof file, in which the variables of each line are numbered by first appearance. The
 * function has the parameters of checker_readout, so that the program is that of readout.c. */
#include "checker.h"

#define checker_readout checker_canonical_readout

#include "readout.c"
