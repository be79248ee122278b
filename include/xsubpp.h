/* What the glue text of xsubpp calls and perl.h keeps for perl's own sources. Include it after EXTERN.h, perl.h and XSUB.h. */
#ifndef XSUBPP_H
#define XSUBPP_H

#ifndef PERL_VERSION
#error "include EXTERN.h, perl.h and XSUB.h before xsubpp.h"
#endif

/* newXS_deffile(NAME, FUNCTION) registers an XSUB, with the name of the file that boots it. perl has the function since 5.22. */
#ifndef newXS_deffile
#if PERL_REVISION == 5 && PERL_VERSION < 22
#define newXS_deffile(name, function) Perl_newXS(aTHX_ name, function, __FILE__)
#else
#define newXS_deffile(name, function) Perl_newXS_deffile(aTHX_ name, function)
#endif
#endif

#endif
