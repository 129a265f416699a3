/* The functions of the header, with their checks for NULL, for the shared library: a language that
 * can't read the header calls these. */
#define GT_EXTERN
#include "galliumtoad.h"
