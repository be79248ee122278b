#define PERL_NO_GET_CONTEXT
#include "EXTERN.h"
#include "perl.h"
#include "XSUB.h"
#include "xsubpp.h"

MODULE = Sums		PACKAGE = Sums		PREFIX = sums_

int
sums_double(int n)
  CODE:
    RETVAL = n + n;
  OUTPUT:
    RETVAL

# two packages in one file

int
sums_of_three(int a, int b, int c)
  CODE:
    RETVAL = a + b + c;
  OUTPUT:
    RETVAL

MODULE = Sums		PACKAGE = Sums::Offset

int
next(int n)
  CODE:
    RETVAL = n + 1;
  OUTPUT:
    RETVAL
