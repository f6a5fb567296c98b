% Text before the first section is limbo text: only TeX sees it.
\def\title{ROMAN}

@* Roman. This program prints its arguments as Roman numerals. Its web is this
file and an included one. The tangler writes three C files:
|roman.c| has the macros, followed by the sections without a name; |numeral.h|
and |numeral.c| have names between \.{@@(} and \.{@@>}.

The numbers from 1 to 3999 have numerals, since no letter means 5000.

@d smallest 1
@d largest 3999
@d has_numeral(n) ((n) >= smallest && (n) <= largest)

@c
@<Header files@>@;

int main(int argc, char *argv[])
{
  int i;
  if (argc < 2)
    @<Print the usage, and stop@>@;
  for (i = 1; i < argc; i++) {
    @<Read the number |n|@>@;
    @<Print |n|@>@;
  }
  return 0;
}

@ @<Header files@>=
#include <stdio.h>
#include <stdlib.h>
#include "numeral.h"

@ A word that is not a number, or a number without a numeral, is treated like
a missing argument: this section and the one above use the same name.

@<Read the number...@>=
char *end;
long n = strtol(argv[i], &end, 10);
if (*end != '\0' || !has_numeral(n))
  @<Print the usage, and stop@>@;

@ @<Print the usage, and stop@>=
{
  fprintf(stderr, "usage: roman NUMBER.., each from %d to %d\n", smallest, largest);
  return 1;
}

@ @<Print |n|@>=
{
  char letters[longest_numeral + 1];
  numeral(letters, n);
  printf("%ld is %s\n", n, letters);
}

@ The next chapter is a file of its own. The line below, which begins with an
at sign and the letter `i', is replaced by the lines of that file.

@i chapters/numerals.w

@* Index.
