#include "EXTERN.h"
#include "perl.h"
#include "XSUB.h"
#include "xsubpp.h"

=head1 NAME

Context - a file without PERL_NO_GET_CONTEXT, with POD before and between its XSUBs

=cut

MODULE = Context PACKAGE = Context

PROTOTYPES: DISABLE

int
hundred_more(int a)
  CODE:
    RETVAL = a + 100;
  OUTPUT:
    RETVAL

=head2 the_same

=cut

int
the_same(int a)
  CODE:
    RETVAL = a;
  OUTPUT:
    RETVAL
