"""Pieces of webs, good and bad ones, for random webs and for mutations."""
from model.programs import LETTERS

WORDS = [b'a', b'b', b'foo', b'int', b'x', b'e', b'E', b'p', b'L', b'u', b'U', b'u8', b'R', b'LR',
         b'include', b'define', b'_x', b'$', b'a$b', b'\xfc', b'f\xfcr', b'\xe4\xfc', b'R2', b'x1']
NUMBERS = [b'0', b'1', b'12', b'0x1p+3', b'0xe', b'0xe+1', b'1e+1', b'1e-', b'.5', b'1.', b'1..2',
           b'2E-', b'0x1P-3', b'9L', b'1.e', b'1e++1', b'0b1', b'1_a\xfc', b'1p+-1']
LITERALS = [b'"a"', b"'x'", b'L"x"', b'u8"y"', b"U'c'", b'u"z"', b'"a\\"b"', b'"a@@b"', b'"a@b"',
            b'"\\\\"', b"'\\''", b'"un', b"'un", b'"x\\\ny"', b'"a@>b"', b'"\\@@"', b'"\\@"', b'""',
            b'"@ "', b'"x\\\n\\\ny"', b'"@', b'"\\']
RAWS = [b'R"(a)"', b'R"d(x)d"', b'R"d(x)e)d"', b'u8R"(\\)"', b'LR"(x)"', b'UR"x()x"', b'R"(@@)"',
        b'R"0123456789abcdef(x)0123456789abcdef"', b'R"0123456789abcdefg(x)0123456789abcdefg"',
        b'R"(a\nb)"', b'R"(@x)"', b'R"(a@)"', b'R"(@ @c)"', b'R"d (x)d "', b'R")(x))"', b'R"(un',
        b'R"\t(x)\t"', b'R"\x0b(x)\x0b"', b'R"\\(x)\\"', b'R"((x)("', b'R"@(x)@"', b'R"(a)b"',
        b'R"', b'R"d(@@)d@@)d"', b'R"\x0c(x)\x0c"', b'R"\r(x)\r"', b'R"\x01(x)\x01"',
        b'R"\xfc(x)\xfc"']
PUNCTUATORS = (b'... <<= >>= ->* -> ++ -- << >> <= >= == != && || *= /= %= += -= &= ^= |= ## :: .* '
               b'. .. * / + - < > = ! ? : ; , ( ) [ ] { } ~ # % & | ^ \\ ` @@').split(b' ')
ODD_BYTES = [b'\x00', b'\x01', b'\x1b', b'\x7f', b'\x80', b'\xff', b'\x0b', b'\x0c', b'\r']
PAIRS = [b'x?-1:-2', b'a/ *b', b'a- -b', b'q=a/@<X@>', b'- ->', b'+@&+', b'a@&b', b'1@&.5',
         b'@=v@>1', b'x@=v@>y', b'/@&', b'.@&.', b'#@&#']
COMMENTS = [b'/* c */', b'/**/', b'/*/ x */', b'// x', b'/* a\nb */', b'/* @@ */', b'/* @x */',
            b'/* un', b'/* @*/', b'// @ x', b'// x @@ y', b'/* @@*/', b'//', b'/* \\\n */',
            b'// \\']
CODES = [b'@h', b'@&', b'@H', b"@'a'", b"@'\\n'", b"@'@@'", b"@''", b"@'\\377'", b"@'\\400'",
         b"@'\\0'", b"@'\\12345'", b"@'ab'", b"@'@ '", b"@'\\8'", b"@'\\''", b"@'''", b"@'\"'",
         b"@'", b"@' '", b"@'\\?'", b"@'\xfc'", b'@=v@>', b'@=a@@b@>', b'@=un', b'@=@>', b'@= @ x',
         b'@=a@b', b'@^i@>', b'@.i@>', b'@:a}{b@>', b'@t x@>', b'@q y@>', b'@T x@>', b'@^i@@j@>',
         b'@^un', b'@l', b'@l fc x', b'@@', b'@-', b'@;', b'@|', b'@/', b'@+', b'@#', b'@!', b'@x',
         b'@y', b'@z', b'@i', b'@>', b'@0', b'@\x80', b'@d', b'@f', b'@s', b'@c', b'@p', b'@D',
         b'@C', b'@$']
DIRECTIVES = [b'#include <a.h>', b'#include "a.h"', b'# include <x>y>', b'#include <a@b>', b'#',
              b'#include <a@>', b'#define X 1 \\', b'#define A /* one', b'two */ 1', b'##', b'#x',
              b'#include <@*>', b'#include<>', b'#include <un', b'#include \\',
              b'#define X(a) a ## a', b'#d a @&', b'#d a \\ ', b'#d "x\\\ny"  z', b'#d R"(x\n)"  y',
              b'#d a /* x\n y */ b', b'#include @&<x>', b'#d @h x  y', b'#d \\@^i@>', b'#d // x',
              b'#include_next <y>', b'#d a', b'@&b  c', b'@&#d a  b', b'#include /* c */ <x>',
              b'#d @<X@>  y', b'#d @& ']
LIMBO = [b'@l fc ue', b'@l fc', b'@l fc a$b', b'@l FC  x_1', b'@l e4 ae', b'@l 7f x', b'@l 80 x',
         b'@l\tff\ty', b'@lfc z', b'@l fcz', b'@l fc a.b', b'@l', b'@l 8', b'@l fc 12', b'@L fc q',
         b'@l fc ' + b'x' * 31, b'@l fc ' + b'x' * 32, b'@l fc ' + b'x' * 31 + b'$', b'@l fc -',
         b'@@', b'@f a b', b'@s a b', b'@q a@>', b'@q un', b'@q a@@b@>', b'@x', b'@c', b'@<a@>',
         b'text', b'@q x@ y', b'@l \x0bfc x', b'@l fc\x0bx', b'@l fc\xfc x']
STARTS = [b'@ ', b'@*', b'@\t', b'@\n', b'@* Title. ', b'@ Text ', b'@ \n', b'@**1 ']
OPENERS = [b'@c', b'@p', b'@C', b'@P', b'@c ', b'@c\n', b'@p\n']
SIGNS = [b'=', b'+=', b' =', b'\t+=', b'==', b'+==', b' + =', b'\n=', b'\x0b=', b'= =', b'']
INCLUDES = [b'@i i1.w', b'@i i2.w', b'@i "i1.w"', b'@ii1.w', b'@I lib.w', b'@i lib.w', b'@i',
            b'@i ""', b'@i gone', b'@i b\x0bc', b'@i b\x0cc', b'@i b\rc', b'@i b c', b'@i b\tc',
            b'@i b"c', b'@i "b c"', b'@i "b', b'@i  \t i2.w rest', b'@i \x0bi1.w', b'@i \xff',
            b'@i b#:%$', b'@i "b\\"', b'@i "b\\ c"', b'@i sub/s.w', b'@i ./i1.w', b'@i sub',
            b'@i lib/lib.w', b'@i b\\', b'@i "sub/../i1.w"', b'@i w.w', b'@i d.w', b'@i b\x00c',
            b'@i "x:y"', b'@i i1.w"', b'@i b',
            b'@i dev/null']
ODD_FILES = [b'b', b'b c', b'b\x0bc', b'b#:%$', b'b\\', b'b\\ c', b'x:y', b'c', b'b\rc']
INPUTS = [None, None, None, b'', b'lib', b'lib/', b'gone', b'sub', b'li b', b'.', b'lib/.', b'\xff',
          b'l%$#:\\']
OUT_NAMES = [b'out.h', b'a.h', b'sub/o.h', b'w.c', b'', b'..', b'sub/', b'gone/x', b'lib', b'a b.h',
             b'a%b', b'a$b', b'a#:b', b'a\\', b'a\\ b', b'\xff', b'a\x01', b'\x7f', b'i1.w',
             b'./out.h', b'x' * 70, b'x' * 254, b'x' * 255, b'a\\%b', b'a\\\\:b', b'\xc3\xbc.h',
             b'sub/.']
OPTIONS = [b'-bph', b'-bp', b'+bphs', b'-z', b'+BPHS', b'+m', b'-m', b'+M', b'-b-', b'+1', b'--',
           b'++', b'-sm', b'+mz', b'-\xc3\xbc', b'-bh', b'+mm']
OPTIONS += [(b'-' if on else b'+') + letter.encode() for letter, on in LETTERS.items()]
ODD_WORDS = [b'w', b'w.w', b'-', b'+', b'', b'gone', b'c', b'c.ch', b'\xff', b'a\x01', b'sub/w',
             b'sub', b'sub/..', b'./w', b'..', b'.', b'v.web', b'o', b'o.c', b'sub/o', b'a$b',
             b'a b', b'a#%:', b'a\\', b'gone/o', b'w/', b'o.h', b'lib/o.x', b'w.', b'.w']

C_TEXT = (WORDS * 3 + NUMBERS * 2 + LITERALS + RAWS + PUNCTUATORS * 2 + ODD_BYTES + PAIRS
          + COMMENTS * 2 + CODES * 2)
ALL = C_TEXT + DIRECTIVES + LIMBO + STARTS + OPENERS + SIGNS + INCLUDES
