@ A word is a run of bytes other than white space. So a word begins at such a
byte if the byte before it is white space. The variable |in_word| says whether
the byte before belongs to a word.

@<Variables...@>=
int c, in_word = 0;

@ Reading one byte at a time is fast enough: the C library has a buffer.

@<Read all...@>=
while ((c = getchar()) != EOF) {
  bytes++;
  if (c == '\n') lines++;
  @<Count a word where one begins@>@;
}

@ @<Count a word...@>=
if (c == ' ' || c == '\t' || c == '\n' || c == '\r' || c == '\v' || c == '\f')
  in_word = 0;
else if (!in_word) {
  in_word = 1;
  words++;
}
