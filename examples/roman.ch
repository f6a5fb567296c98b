With these changes ROMAN prints an equals sign and small letters, and writes 4
as medieval scribes did: iiii. Text outside the entries, like this, is ignored.
The second entry changes a line of the included file: entries are matched in
the order of the merged lines.

@x
  printf("%ld is %s\n", n, letters);
@y
  printf("%ld = %s\n", n, letters);
@z

@x
  "M", "CM", "D", "CD", "C", "XC", "L", "XL", "X", "IX", "V", "IV", "I" };
@y
  "m", "cm", "d", "cd", "c", "xc", "l", "xl", "x", "ix", "v", "iiii", "i" };
@z
