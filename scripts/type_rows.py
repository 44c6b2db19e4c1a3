#!/usr/bin/env python3
"""Prints tables of texts with the fault of names or types that stands in each, and of texts that are accepted.

In a text below `@` marks the place of its fault. scripts/c_types.py, a checker written from the rules alone, has to find this fault and
no other. The tables are kept in a file of crates/type_rows/src/tests:

    scripts/type_rows.py > crates/type_rows/src/tests/rows.rt
"""
from c_types import faults_of
from tree_rows import WORD_COUNTER, literal, made

MAIN = " int main(void) {}"
PARAMETERS = ", ".join(f"int p{k}" for k in range(65))


def inside(text):
    return f"int main(void) {{ {text} }}"


FAULTS = {
    "Unknown": [
        inside("return @x;"), inside("@f();"), inside("@a[0] = 1;"), inside("@x++;"), inside("@x = 1; int x;"),
        inside("{ int x; } return @x;"), inside("for (int i = 0; i < 3; i++) ; return @i;"),
        inside("switch (1) { int x; default: ; } return @x;"), "int f(int a) { return a; } int main(void) { return @a; }",
        "int f(int a); int g(void) { return @a; }" + MAIN, "int main(void) { return @f(); } int f(void) { return 1; }",
        "int f(void) { return @x; } int x;" + MAIN,
    ],
    "Redeclared": [
        "int x; char @x;" + MAIN, "int x, @x;" + MAIN, inside("int x; int @x;"), inside("int x, y, @x[2];"),
        "int f(int a) { int @a; return a; }" + MAIN, "int f(int a, char @a);" + MAIN, "int f(int a, char @a) { return a; }" + MAIN,
        "int f(void); char @f(void);" + MAIN, "int f(int a); int @f(char a);" + MAIN, "int f(int a) { return a; } int @f(void);" + MAIN,
        "int f(void) { return 1; } int @f(void) { return 2; }" + MAIN, "int @getchar(int c);" + MAIN,
        "int @getchar(void) { return 1; }" + MAIN, "int f; int @f(void);" + MAIN, "int f(void); int @f;" + MAIN, "int @exit;" + MAIN,
        inside("for (int i, @i; ; ) ;"), inside("switch (1) { int x; default: ; int @x; }"),
    ],
    "NoBody": [
        "int f(void); int main(void) { return @f(); }", "void f(int a); int main(void) { @f(1); } void f(int a);",
        "void f(void); int main(void) { return 1 + @f(); }",
    ],
    "ArgCount": [
        "int f(int a) { return a; } int main(void) { return @f(); }", "int f() { return 1; } int main(void) { return @f(1); }",
        inside("@putchar(1, 2);"), inside("return @getchar(1);"), inside("@exit();"),
    ],
    "NotAFunction": [
        "int x; int main(void) { return @x(); }", "int f() { return 1; } int main(void) { int f = 0; return @f(); }",
        "int f(int f) { return @f(1); }" + MAIN, inside("int a[2]; @a(1);"),
    ],
    "NotAnArray": [
        "int x; int main(void) { return @x[0]; }", "int f() { return 1; } int main(void) { return @f[0]; }",
        "int a[2]; int main(void) { int a = 0; @a[0] = 1; }", inside("@getchar[1]++;"),
    ],
    "NotAVariable": [
        "int f() { return 1; } int main(void) { return @f; }", inside("@getchar;"), inside("if (@exit) ;"), inside("putchar(@putchar);"),
        "int f() { return 1; } int main(void) { f @= 1; }", "int f() { return 1; } int main(void) { f@++; }",
        inside("int x; (x) = 1; (1) @= 2;"), inside("int x; -x @= 1;"), inside("int x; x++ @= 1;"), inside("int x; @++x++;"),
        inside("getchar() @+= 1;"), inside("int x, y; (x, y)@--;"), inside("int x; (x ? x : x) @= 1;"), inside("int x, y; (x = y) @= 1;"),
        inside("@--EOF;"),
    ],
    "ArrayValue": [
        "int a[2]; int main(void) { return @a; }", inside("int a[2]; @a;"), inside("int a[2]; if (@a) ;"),
        inside("int a[2]; putchar(@a);"), inside("int a[2]; @a = 1;"), inside("int a[2]; ++@a;"), inside("int a[2]; (@a)++;"),
        inside("int a[2], b[2]; return b[@a];"), inside("int @a[2] = 1;"), inside("int @x = {1};"), "int @a[2] = 1;" + MAIN,
        "int @x = {1};" + MAIN,
    ],
    "VoidValue": [
        "void f() {} int main(void) { return 1 + @f(); }", "void f() {} int main(void) { return @f(); }",
        "void f() {} int main(void) { if (@f()) ; }", "void f() {} int main(void) { putchar(@f()); }",
        "void f() {} int main(void) { int x = @f(); }", "void f() {} int main(void) { return -@(f()); }",
        "void f() {} int main(void) { return 1 + @(1, f()); }", "void f() {} int main(void) { int x = 1 @? f() : f(); }",
        "void f() {} int main(void) { 1 ? @f() : 1; }", "void f() {} int main(void) { 1 ? 1 : @f(); }",
        "void f() {} int main(void) { (int)@f(); }", inside("return @(void)1;"), inside("int a[2]; a[@(void)0] = 1;"),
        inside("switch (@(void)0) { default: ; }"), inside("while (@exit(1)) ;"), "void @x;" + MAIN, inside("void @x;"),
        inside("void @a[2];"), "int f(void @x);" + MAIN, "int f(void @x) { return 1; }" + MAIN, "int f(@void, int);" + MAIN,
        "int f(int a, @void);" + MAIN, "int f(int a, void @b);" + MAIN, "void f() { @return 1; }" + MAIN,
        "void g() {} void f() { @return g(); }" + MAIN, inside("@return;"),
    ],
    "BadCase": [
        inside("int x; switch (1) { @case x: ; }"), inside("switch (1) { @case getchar(): ; }"), inside("switch (1) { @case 1 / 0: ; }"),
        inside("switch (1) { @case 2147483647 + 1: ; }"), inside("switch (1) { @case 1 << 32: ; }"),
        inside("switch (1) { @case -1 << 0: ; }"), inside("switch (1) { @case 1 || getchar(): ; }"),
        inside("switch (1) { @case 0 || 1 % 0: ; }"), inside("switch (1) { @case (1, 2): ; }"),
        inside("int x; switch (1) { @case (x = 1): ; }"), inside("switch (1) { @case 0 ? getchar() : 1: ; }"),
        inside("int a[2]; switch (1) { @case a[0]: ; }"), inside("switch (1) { @case -2147483647 - 2: ; }"),
    ],
    "NotConstant": [
        "int x; int @y = x;" + MAIN, "int @x = getchar();" + MAIN, "int @x = 1 / 0;" + MAIN, "int @x = -2147483647 - 2;" + MAIN,
        "int @x = 1 << 31;" + MAIN, "int @x = (1, 2);" + MAIN, "int x, @a[2] = {1, x};" + MAIN, "int @x = x;" + MAIN,
        "int @x = 0 ? getchar() : 1;" + MAIN, "int x, @y = (x = 1);" + MAIN, "int @x = 1 ? 1 >> 32 : 1;" + MAIN,
        "int x, @y = x++;" + MAIN,
    ],
    "TwiceCase": [
        inside("switch (1) { case 1: @case 1: ; }"), inside("switch (1) { case 1: ; case 2: ; @case 3 - 2: ; }"),
        inside("switch (1) { default: ; @default: ; }"), inside("switch (1) { case 0: ; @case 4294967296: ; }"),
        inside("switch (1u) { case -1: ; @case 4294967295: ; }"),
        "int f(char c) { switch (c) { case 255: ; case -1: ; @case 4294967295: ; } return 1; }" + MAIN,
        inside("switch (1) { case 'a': ; @case 97: ; }"), inside("switch (1) { case EOF: ; @case -1: ; }"),
    ],
    "OutsideLoop": [
        inside("@break;"), inside("@continue;"), inside("if (1) @break; else ;"), inside("while (1) ; @break;"),
        inside("switch (1) { default: @continue; }"), inside("switch (1) { case 1: { @continue; } }"),
        inside("do break; while (1); @continue;"), "void f() { while (1) ; } void g() { @break; }" + MAIN,
    ],
    "ArraySize": [
        "int @a[0];" + MAIN, "int @a[-1];" + MAIN, "int @a[1048577];" + MAIN, "int x, @a[x];" + MAIN, "int @a[1 / 0];" + MAIN,
        "int @a[];" + MAIN, "int @a[2] = {1, 2, 3};" + MAIN, inside("int @a[0];"), inside("int x; int @a[x];"), inside("int @a[];"),
        inside("int @a[1] = {1, 2};"), inside("int @a[4294967296];"), inside("int @a[1 || getchar()];"), inside("int @a[(1, 2)];"),
    ],
    "TooManyParameters": [
        f"int @f({PARAMETERS});" + MAIN, f"int @f({PARAMETERS}) {{ return p0; }}" + MAIN,
    ],
    "NoMain": [
        "@", " /* nothing */ @", "int x;@ \n", "int main(void);@", "void main(void) {}@", "int main(int a) { return a; }@", "int main;@",
        "int moin() {}@",
    ],
}

# A text without tokens ends at 0.
AT_NOTHING = " /* nothing */ @"

ACCEPTED = [
    "int f(int); int f(int a) { return a; } int f(int b); int main(void) { return f(1); }",
    "int getchar(void); int getchar(); int putchar(int c); int putchar(int); void exit(int status); int main(void) {}",
    "int main() { return main(); }", "int f() { return 1; } int f(void); int main(void) { return f(); }",
    inside("switch (1) { case (char)257: ; case 2: ; case (1 || 1 / 0) + 2: ; }"),
    inside("switch (1) { case 1 ? 5 : 1 / 0: ; case 'a' + 1: ; case EOF: ; case (unsigned char)-1: ; case !0: ; }"),
    inside("switch (0l) { case 0: ; case 4294967296: ; }"), inside("switch (1) { }"), inside("switch (1) { case 1: }"),
    inside("switch (1) { case 1: int x; }"), inside("switch (1) { int x; default: x = 1; break; }"), inside("int y = y; return y;"),
    inside("int x = 1; { char x = 2; x++; } return x;"), "int f(int a) { { int a = 1; return a; } }" + MAIN,
    inside("int n = 3, a[3]; { int n[2] = {1, 2,}; n[0] = a[n[1]]; } return n;"), inside("int a[] = {1, 2,}; return a[1];"),
    "int a[2 * 3], b['a'], c[1048576], d[(1 || 1 / 0) + 1] = {1};" + MAIN, "int f(int a, char b); void g();" + MAIN,
    "void f() {} int main(void) { (void)f(); 1, f(); 1 ? f() : f(); (f()); for (f(); 1; f()) break; }",
    inside("int x, a[2]; (x) = 1; ((a[0]))++; (a[1]) += x; return x, 1;"),
    inside("for (;;) { switch (1) { case 1: continue; default: break; } break; }"),
    "int f(int a); int g(int a) { return f(a); } int f(int a) { return g(a); }" + MAIN,
    inside("int getchar = 1, putchar[2]; putchar[0] = getchar;"), f"int f({PARAMETERS[:-len(', int p64')]}) {{ return p0; }}" + MAIN,
    inside("for (int i = 0; i < 3; i++) { int i = 5; } for (int i = 0; ; ) break;"),
    "_Bool b = 2; unsigned char c = -1, d[3] = {300, -1}; long l = 4294967296;" + MAIN, "int x = 1 ? 2 : 1 % 0, y = 0 && 1 / 0;" + MAIN,
    "void f(void) { return; } int main(void) { int main = 1; return main; }", WORD_COUNTER, made(2),
]


def variant(fault, text):
    """The row of a marked text, once the checker has found this fault alone."""
    place = 0 if text == AT_NOTHING else text.index("@")
    text = text.replace("@", "")
    assert set(faults_of(text)) == {f"{fault}({place})"}, (text, fault, place, faults_of(text))
    return f"    (b{literal(text)}, TypeFault::{fault}({place})),"


def main():
    print("//! Texts with the fault of names or types that stands in each, and texts that are accepted. Printed by scripts/type_rows.py.\n")
    print("use c_types::TypeFault;")
    for fault, texts in FAULTS.items():
        name = "".join("_" + c if c.isupper() else c for c in fault).upper()[1:]
        print(f"\npub const {name}: [(&[u8], TypeFault); {len(texts)}] = [")
        print("\n".join(variant(fault, text) for text in texts))
        print("];")
    print(f"\npub const ACCEPTED: [&[u8]; {len(ACCEPTED)}] = [")
    for text in ACCEPTED:
        assert not faults_of(text), (text, faults_of(text))
        print(f"    b{literal(text)},")
    print("];")


main()
