#define PERL_NO_GET_CONTEXT
#include "EXTERN.h"
#include "perl.h"
#include "XSUB.h"
#include "xsubpp.h"

MODULE = Many PACKAGE = Many

int
add(int a, int b)
  CODE:
    RETVAL = a + b;
  OUTPUT:
    RETVAL

int
eight(int a, int b, int c, int d, int e, int f, int g, int h)
  CODE:
    RETVAL = a + b + c + d + e + f + g + h;
  OUTPUT:
    RETVAL

int
answer(int ignored)
  CODE:
    RETVAL = 40 + 2;
  OUTPUT:
    RETVAL
