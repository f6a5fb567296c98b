These changes to TUTORIAL spell digits as radio operators do. Text outside the
entries, like this, is a comment. The first entry changes a line of tutorial.w,
the second one lines of the file that it includes.

@x
@d separator " "
@y
@d separator "-"
@z

@x
  "zero", "one", "two", "three", "four",
  "five", "six", "seven", "eight", "nine"};
@y
  "zero", "wun", "too", "tree", "fower",
  "fife", "six", "seven", "ait", "niner"};
@z
