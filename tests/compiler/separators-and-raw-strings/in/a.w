@ Numbers with separators, and raw strings, in macros, in C parts and beside constants.
@d large 10'000 // it's large
  + 1
@d both @'A''b' R"x(a//b)x"
@c
n = large; m = 0x1'F  -1'000'u8+@'a'; k = 10'00@&0;
f(both, u8R"((a))" LR"d(//)d", @'c''\'', '"');
s = @=R"(a//b)"@>;
