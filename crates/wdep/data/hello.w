@ Hello.
@c
#include <stdio.h>
int main(void) { @<Greet@> return 0; }
@ @<Greet@>=
puts("hi");
