"""Numbers with digit separators and raw strings at random, right ones and almost right ones."""

NUMBERS = [b"10'000", b"1'0", b"0x1'F", b"1'000'000", b"1'", b"1''0", b"'1'0'", b"x1'0'", b"1'x'", b"1'_", b"1'$", b"1'\xe9'",
           b"0x1.F'F", b".5'5", b"1e+5'0", b"1@&'0'", b"1'@&0", b"1/**/'0'", b"@'a''b'", b"1'0@'a'", b"@'a'1'0", b"1'0\"s\"",
           b"10'000 // it's big", b"1'0'0@&0", b"1'\\\n0"]

RAW_PREFIXES = [b'R'] * 4 + [b'LR', b'uR', b'UR', b'u8R', b'u8', b'xR', b"1'R", b'R ', b'R@&', b'R@,', b'R\\\n', b'@=R@>',
                             b'u8@&R']
RAW_TEXTS = [b'"(x)"', b'"(a   b)"', b'"(a // b)"', b'"("', b'")"', b'""', b'"(a', b'"x(a)x"', b'"x(a)y"', b'"x(a)"', b'"x(x"',
             b'"x y(a)x y"', b'"\\\\(a)\\\\"', b'")(a))"', b'"(a)b"', b'"(a\\")"', b'"(a\\)"', b'"(a\\\nb)"', b'"(a)\\\n"',
             b'"abcdefghijklmnop(x)abcdefghijklmnop"', b'"abcdefghijklmnopq(x)abcdefghijklmnopq"', b'"@@(x)@@"',
             b'"@@@@@@@@@@@@@@@@(x)@@@@@@@@@@@@@@@@"', b'"(a@b)"', b"'(x)'", b'"((x))"', b'"(a)" "b"']


def raw_text(chance):
    return chance.choice(RAW_PREFIXES) + chance.choice(RAW_TEXTS)
