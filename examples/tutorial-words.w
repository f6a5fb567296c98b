@ A name between \.{@@(} and \.{@@>} is also the name of a file. The C code of
this section goes to \.{words.h} and not to \.{tutorial.c}.

@(words.h@>=
static const char *const words[]={
  "zero", "one", "two", "three", "four",
  "five", "six", "seven", "eight", "nine"};

@ The main file includes \.{words.h}. This section appends to a name that is
defined above. Some authors write a plus before the equals sign there; it has
the same meaning.

@<Header files@>+=
#include "words.h"
