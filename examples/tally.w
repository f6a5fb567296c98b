% Text before the first section is limbo text: only TeX sees it.
\def\title{TALLY}

@* Tally. This program reads its standard input once, and prints how many
lines, words and bytes it has, as |wc| does.

The web explains it in an order for readers. The tangler writes the C text in
the order that a compiler needs; the merger replaces the include line by the
lines of the included file.

@c
@<Header files@>@;

int main(void)
{
  @<Variables of the count@>@;
  @<Read all bytes and count them@>@;
  @<Print the counts@>@;
  return 0;
}

@ The C library is used for reading and printing only.

@<Header files@>=
#include <stdio.h>

@ There are three counts. They are wide integers, since an input may be longer
than the memory.

@<Variables of the count@>=
unsigned long lines = 0, words = 0, bytes = 0;

@ The counting is in a file of its own. The line below, which begins with an at
sign and the letter `i', is replaced by the lines of that file.

@i counting.w

@ The counts have the usual order.

@<Print the counts@>=
printf("%lu %lu %lu\n", lines, words, bytes);

@* Index.
