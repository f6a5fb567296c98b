@* Numerals. The longest numeral is that of 3888. It has fifteen letters.

@(numeral.h@>=
#ifndef NUMERAL_H
#define NUMERAL_H
#define longest_numeral 15
@<Prototype of |numeral|@>;
#endif

@ @<Prototype...@>=
void numeral(char *letters, int number)

@ Two tables give the letters and the number of each sign. The function
subtracts the largest number that fits, and repeats this until nothing is left.

@(numeral.c@>=
#include "numeral.h"

@<Tables of signs@>@;

@<Prototype...@>
{
  int i;
  for (i = 0; number > 0; i++)
    while (number >= values[i]) {
      const char *next;
      for (next = signs[i]; *next != '\0'; next++) *letters++ = *next;
      number -= values[i];
    }
  *letters = '\0';
}

@ @<Tables...@>=
static const char *const signs[] = {
  "M", "CM", "D", "CD", "C", "XC", "L", "XL", "X", "IX", "V", "IV", "I" };
static const int values[] = {
  1000, 900, 500, 400, 100, 90, 50, 40, 10, 9, 5, 4, 1 };
