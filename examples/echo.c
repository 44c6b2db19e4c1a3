int main(void) {
putchar('<');
while (getchar() == 'a') {
putchar('b');
}
return 3;
}
