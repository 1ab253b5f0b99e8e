/* What the portable C needs of math.h, where there is no C library. */
#ifndef MATH_H
#define MATH_H

#define INFINITY __builtin_inff()
#define NAN __builtin_nanf("")

#endif
