/* The port for the library: the Makefile hides the functions for its texts. */
#include "../tools/gt_port.c"
#include "../tools/text.c"
