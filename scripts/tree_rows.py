#!/usr/bin/env python3
"""Prints tables of texts: with their trees, or with the places of their syntax faults and the greatest depth of what can be repeated.

The answers come from scripts/c_trees.py, a reader written from the grammar alone. The tables are kept in two files of
crates/front_rows/src/tests:

    scripts/tree_rows.py trees > crates/front_rows/src/tests/tree_rows.rt
    scripts/tree_rows.py faults > crates/front_rows/src/tests/fault_rows.rt
"""
import sys

from c_trees import brief

WORD_COUNTER = r"""#include <stdio.h>

int lines, words;

int blank(int c) {
  switch (c) {
  case ' ':
  case '\n':
  case '\t':
    return 1;
  default:
    return 0;
  }
}

void number(int n) {
  if (n >= 10)
    number(n / 10);
  putchar('0' + n % 10);
}

int main(void) {
  int c, inside = 0;
  while ((c = getchar()) != EOF) {
    if (c == '\n')
      lines++;
    if (blank(c))
      inside = 0;
    else if (!inside) {
      inside = 1;
      words++;
    }
  }
  number(lines);
  putchar(' ');
  number(words);
  putchar('\n');
  return 0;
}
"""


def made(n):
    """A source with so many loops, whose main adds up what they give."""
    lines = []
    for k in range(n):
        lines += [f"int f{k}(int n) {{", f"int s = {k};", "while (n > 0) {", "if (n % 2 == 0)", "s = s + n;", "else", "s = s - 1;", "n = n - 1;", "}",
                  "return s;", "}"]
    lines += ["int main(void) {", "int t = 0;"] + [f"t = t + f{k}({k});" for k in range(n)] + ["return 0;", "}"]
    return "".join(line + "\n" for line in lines)


def valued(*texts):
    return [f"int x={text};" for text in texts]


def inside(*texts):
    return [f"void f(){{{text}}}" for text in texts]


TREES = {
    "source": [
        "", " /* nothing */ \n", "int main(void) { int r = 0; if (1) if (0) r = 1; else r = 2; return r; }", WORD_COUNTER, made(2)],
    "operator": valued(
        "1-2-3", "1-2*3+4", "1<<2+3<4==5&6^7|8&&9||0", "1||2&&3|4^5&6==7<8<<9+1*2", "8/4%3*2", "1>2<3>=4<=5", "1!=2==3", "1>>2<<3",
        "-1-+2*~3/!4", "- -1", "!!a", "(1+2)*3", "((1))", "a&&b||c&&d", "a+++++b", "a---b"),
    "choice": valued("a?b:c?d:e", "a?b?c:d:e", "a?(b,c):d", "a?b,c:d", "a||b?c=d:e"),
    "assignment": valued(
        "a=b=c", "a+=b-=c*=d", "a/=1", "a%=1", "a&=1", "a^=b|=c", "a<<=1", "a>>=1", "(a)=1", "a[1]=2", "f()=1", "++a=1", "a++=1", "1=2",
        "-a=1", "EOF=1"),
    "cast": valued(
        "(int)a", "(int)-a", "-(int)a", "(unsigned char)(long)a", "(int)a+b", "(int)(a+b)", "(long unsigned int)1", "(void)0", "(a)+b"),
    "postfix": valued(
        "++a", "--a", "a++", "a--", "++--a", "a++--", "-a++", "!++a", "++a++", "a[b[1]]", "a[1,2]++", "f()", "f(1)", "f(a,b=2,(3,4))",
        "f(g(1),h(2))++", "f(1)+f(2)", "-f(-1)"),
    "constant": valued(
        "0", "017", "0xFf", "1uL", "1Lu", "2147483648", "0x80000000", "18446744073709551615u", "'a'", r"'\n'", r"'\377'", r"'\x41'", "EOF",
        "x"),
    "declaration": [
        "int x;", "int x,y=1,z[2];", "unsigned long long_name;", "char a[]={1,2,};", "char a[1?2:3]={1};", "int a[1],b=f(1,2),c[2]={3,4};",
        "short a; long b; _Bool c; signed d; void e;", "int long unsigned a;", "unsigned a=(1,2);", "int a[1];"],
    "function": [
        "int f();", "int f(void);", "void f(int,char c);", "int f(int a,unsigned long b){}", "int f(void,int);", "int f(void x){}",
        "int f(){return 1;} int g(void){return;}", "int f(int a);int b;int f(int a){}"],
    "block": inside(
        "", ";", ";;", "{}", "{{;}{}}", "1;", "a,b;", "return;", "return a;", "break;", "continue;", "int a;", "int a=1;a;", "int a;{int a;}"),
    "branch": inside(
        "if(1);", "if(1);else;", "if(1)if(2);else;", "if(1)if(2);else;else;", "if(1){if(2);}else;", "if(1);else if(2);else;",
        "if(1)while(2)if(3);else;"),
    "loop": inside(
        "while(1);", "while(1)while(2){}", "do;while(1);", "do do;while(1);while(2);", "do{}while(1);", "do if(1);else;while(2);",
        "do\n;\nwhile\n(1);", "for(;;);", "for(1;2;3);", "for(int i=0;i<1;i++){}", "for(a,b;;);", "for(;;c,d)for(;;);", "for(int i,j;;);",
        "for(;1;);"),
    "switch": inside(
        "switch(1){}", "switch(1){case 1:}", "switch(1){case 1:case 2:;default:;}", "switch(a){int b;case 1?2:3:b;break;}",
        "switch(1){{case_;}default:}", "switch(1){case 1:switch(2){default:;}}", "while(1)switch(2){case 3:break;}continue;"),
}

FAULTS = {
    "source": [
        "int main(void) { return 1 2; }", "x;", "int", "int;", "int 1;", "int x", "int x=;", "int x=1", "int x,;", "int x y;", "1;", ";",
        "int x;;"],
    "type": [
        "long long x;", "unsigned signed x;", "int int x;", "void char x;", "short long x;", "_Bool int x;"],
    "variable": [
        "int a[1;", "int a[1", "int a]1[;", "int a[1][2];", "int a[1,2];", "int a={};", "int a={,};", "int a={1", "int a={1,,};",
        "int a={1,2", "int a={{1}};", "int a=(1", "int a=1);", "int a=(1;", "int a=();"],
    "function": [
        "int f(", "int f()", "int f(int", "int f(int a", "int f(int a,", "int f(int a,);", "int f(a);", "int f(a) int a; {}",
        "int f(int a) int b; {}", "int f(int){}", "int f(int a,int){}", "int f(void,int a){}", "int f(void)(void);", "int f(){",
        "int f(){{}", "int f(){}}", "int f(){};", "int f(int a[]){}", "int f(int a=1);", "int f(){int g(){}}", "int f(){int g();}"],
    "operator": valued(
        "1+", "+", "1+*2", "a b", "a)", "a?b", "a?b:", "a?:b", "a?b;c", "a:b", "a=", "=a", "-a=", "1+a=2", "a+b=c", "a?b:c=d", "(int)a=1",
        "a&&b=1", "a++++b", "++", "++1 2", "a++ b", "a===b", "a<>b", "a&&&b"),
    "operand": valued(
        "a(", "a(1", "a(1,", "a(1,)", "a(,1)", "a[", "a[1", "a[]", "a[1)", "1(2)", "1[2]", "f()()", "f()[1]", "a[1][2]", "a[1](2)", "(int",
        "(int)", "(int)+", "(int a)", "(long long)1", "()", "(,1)"),
    "branch": inside(
        "if", "if(", "if(1", "if(1)", "if 1;", "if();", "else;", "if(1);else", "if(1);;else;", "if(1)int a;", "if(1){}else int a;"),
    "loop": inside(
        "while", "while(1)", "while();", "while(1)int a;", "do", "do;", "do;while", "do;while(1)", "do;while(1){}", "do;while 1;",
        "do;;while(1);", "do int a;while(1);", "for", "for(", "for()", "for(;)", "for(;;", "for(;;)", "for(1)", "for(1,;;);", "for(int i);",
        "for(;;)int a;", "for(;;;);", "for(int i;int j;);"),
    "switch": inside(
        "switch", "switch(1)", "switch(1);", "switch(1)case 1:;", "switch(1){1:}", "switch(1){case:}", "switch(1){case 1}",
        "switch(1){case 1,2:}", "switch(1){default}", "switch(1){default 1:}", "switch(1){", "case 1:;", "default:;", "{case 1:;}"),
    "statement": inside(
        "1", "a b;", "break", "break 1;", "continue", "continue 1;", "return", "return 1", "return int;", "int a", "int a b;", "int;",
        "long long a;", "x:;", "a:b;", "(int)", "{", "}", "{;", "1;}", ")"),
}

DEEPEST = [
    ("parentheses", "int main(void) { return ", "(", "1", ")", "; }"),
    ("calls", "int main(void) { return ", "f(", "1", ")", "; }"),
    ("elements", "int main(void) { return ", "a[", "1", "]", "; }"),
    ("signs", "int main(void) { return ", "- ", "1", "", "; }"),
    ("steps", "int main(void) { return ", "++", "a", "", "; }"),
    ("steps_behind", "int main(void) { return ", "", "a", "++", "; }"),
    ("casts", "int main(void) { return ", "(int)", "1", "", "; }"),
    ("sums", "int main(void) { return ", "1+", "1", "", "; }"),
    ("choices", "int main(void) { return ", "1?1:", "1", "", "; }"),
    ("assignments", "int main(void) { return ", "a=", "1", "", "; }"),
    ("commas", "int main(void) { return ", "1,", "1", "", "; }"),
    ("initialisers", "int x=", "(", "1", ")", ";"),
    ("list", "int x[]={1,", "(", "1", ")", "};"),
    ("length", "int x[", "(", "1", ")", "];"),
    ("local_length", "int f(){int x[", "(", "1", ")", "];}"),
    ("blocks", "int f(){", "{", ";", "}", "}"),
    ("ifs", "int f(){", "if(1)", ";", "", "}"),
    ("else_ifs", "int f(){", "if(1);else ", ";", "", "}"),
    ("loops", "int f(){", "while(1)", ";", "", "}"),
    ("dos", "int f(){", "do ", ";", "while(1);", "}"),
    ("fors", "int f(){", "for(;;)", ";", "", "}"),
    ("for_heads", "int f(){for(", "(", "1", ")", ";;);}"),
    ("for_declarations", "int f(){for(int i=", "(", "1", ")", ";;);}"),
    ("for_tests", "int f(){for(;", "(", "1", ")", ";);}"),
    ("switches", "int f(){", "switch(1){", "", "}", "}"),
    ("labels", "int f(){switch(1){case ", "(", "1", ")", ":;}}"),
    ("values", "int f(){", "(", "1", ")", ";}"),
]


def literal(text):
    return '"' + text.replace("\\", "\\\\").replace('"', '\\"').replace("\n", "\\n").replace("\t", "\\t") + '"'


def deepest(front, unit, middle, close, back):
    """The most repetitions that have a tree."""
    most = next(n for n in range(256, 0, -1) if brief(front + unit * n + middle + close * n + back).startswith("Tree"))
    assert brief(front + unit * (most + 1) + middle + close * (most + 1) + back) == "TooDeep"
    return most


def print_tables(topics, kind, second, expected, value):
    """One table for each topic, whose rows are a text and what the reader's answer says of it."""
    for topic, texts in topics.items():
        rows = [(text, brief(text)) for text in texts]
        others = [row for row in rows if not row[1].startswith(expected)]
        assert not others, others
        print(f"\npub const {topic.upper()}_{kind}: [(&[u8], {second}); {len(rows)}] = [")
        for text, answer in rows:
            print(f"    (b{literal(text)}, {value(answer)}),")
        print("];")


def print_trees():
    print("//! Texts with the short forms of their trees. Printed by scripts/tree_rows.py.")
    print_tables(TREES, "TREES", "&str", "Tree", literal)


def print_faults():
    print("//! Texts that no tree derives with the places where the grammar stops, and what can be repeated in a source. Printed by")
    print("//! scripts/tree_rows.py.")
    print_tables(FAULTS, "FAULTS", "u32", "Syntax", lambda answer: answer[len("Syntax("):-1])
    print()
    print("/// Texts that hold something repeated.")
    print("#[derive(Clone, Copy)]")
    print("pub struct Nested {")
    for name in ("front", "unit", "middle", "close", "back"):
        print(f"    pub {name}: &'static [u8],")
    print("    /// The most repetitions that have a tree.")
    print("    pub most: usize,\n}\n")
    print("/// What can be repeated in a source, up to the greatest depth.")
    print(f"pub const DEPTH_ROWS: [Nested; {len(DEEPEST)}] = [")
    for _, *parts in DEEPEST:
        print("    Nested {")
        for name, part in zip(("front", "unit", "middle", "close", "back"), parts):
            print(f"        {name}: b{literal(part)},")
        print(f"        most: {deepest(*parts)},\n    }},")
    print("];")


if __name__ == "__main__":
    print_trees() if sys.argv[1:] == ["trees"] else print_faults()
