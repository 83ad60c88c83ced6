// The factorial of n, modulo 2^32: the last call is the one with 1.

unsigned factorial(unsigned n) { return n < 2 ? 1 : n * factorial(n - 1); }

int main(unsigned n) { return (int)(factorial(n) % 251); }
