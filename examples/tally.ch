With these changes TALLY asks the C library which bytes are white space, and
prints each count on its own line. Text outside the entries, like this, is
ignored. The second entry changes a line of the included file counting.w:
entries are matched in the order of the merged lines.

@x
#include <stdio.h>
@y
#include <ctype.h>
#include <stdio.h>
@z

@x
if (c == ' ' || c == '\t' || c == '\n' || c == '\r' || c == '\v' || c == '\f')
@y
if (isspace(c))
@z

@x
@ The counts have the usual order.

@<Print the counts@>=
printf("%lu %lu %lu\n", lines, words, bytes);
@y
@ Each count has a line of its own, after its name.

@<Print the counts@>=
printf("lines %lu\n", lines);
printf("words %lu\n", words);
printf("bytes %lu\n", bytes);
@z
