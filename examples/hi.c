int main(void){putchar(72);putchar(105);putchar(10);return 7;}
