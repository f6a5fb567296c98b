% Text before the first section is limbo text. TeX reads it; ctangle skips it.
\def\title{TUTORIAL}

@* A lesson in CWEB. This file is a web: a program, told to a reader in the
order that explains it best. It is also a lesson. Each section explains the
features that it uses. The program spells numbers digit by digit:
`\.{tutorial 407}' prints `\.{four zero seven}'.

Two programs read a web. `\.{ctangle tutorial}' writes the C files, which a
compiler reads. `\.{cweave tutorial}' writes a \TeX\ file, which prints as a
document with an index.

@ A web is a list of sections. A section begins with an at sign and a blank, as
this one does. With a star instead of the blank it also has a title, like the
section before. Each section has up to three parts, in this order: commentary,
definitions, and C code. This section has only commentary.

In commentary, code between bars is set as C, as in |i<argc|. An at sign is
written twice: this is one, \.{@@}.

@ The code \.{@@c} begins C code for the main file, \.{tutorial.c}. A phrase
between \.{@@<} and \.{@@>} is a name: it represents code that a later section
defines. So a function can show its plan first. The code \.{@@;} only tells
\.{cweave} that the name is a statement.

@c
@<Header files@>@;

int main(int argc, char *argv[])
{
  int i;

  for (i=1; i<argc; i++) {
    @<Spell the number |argv[i]|@>@;
  }
  return 0;
}

@ An equals sign after a name defines it. Several sections may define the same
name; \.{ctangle} appends their code in the order of the sections.

@<Header files@>=
#include <stdio.h>

@ Definitions come before the C code of their section. The code \.{@@d} defines
a macro. All macros go to the start of the main file, as \.{\#define} lines.

A name may be abbreviated by three dots, as soon as no other name begins with
the same letters. It must be written in full in one place, here in |main|.

@d is_digit(c) ((c)>='0' && (c)<='9')
@d separator " "

@<Spell the number...@>=
{
  const char *next, *before="";

  for (next=argv[i]; *next!='\0'; next++)
    if (is_digit(*next)) {
      @<Print the word for the digit |*next|@>@;
    }
  printf("\n");
}

@ The array |words| comes from a file that a later section defines.

@<Print the word...@>=
printf("%s%s", before, words[*next-'0']);
before=separator;

@ The code \.{@@i} at the start of a line includes a file. Its lines replace
the line, and may contain sections, as they do here.

@i tutorial-words.w

@* Change files. A change file adapts a web that must stay as it is. Each entry
has the old lines, between \.{@@x} and \.{@@y}, and the new lines, up to
\.{@@z}. With `\.{ctangle tutorial tutorial}' the changes in \.{tutorial.ch}
are applied, and the program spells as radio operators do.

@* Index. The last section of a web usually has this title. \.{cweave} prints
the index of all identifiers after it.
