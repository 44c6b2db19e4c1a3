int main(void) {
while (getchar() == '(') {
putchar('[');
while (getchar() == '.') {
putchar('-');
while (getchar() == '!') {
}
}
putchar(']');
}
return 0;
}
