// made_elements.cyc in C, with calloc and free in place of a region.
#include <stdio.h>
#include <stdlib.h>

void print(unsigned value) {
    if (value >= 10u) print(value / 10u);
    putchar('0' + value % 10u);
}

void cross(char *crossed, int number) {
    int next = number * number;
    while (next < 4096) {
        crossed[next] = 1;
        next = next + number;
    }
}

int count(char *crossed) {
    int primes = 0;
    int number = 2;
    while (number < 4096) {
        if (!crossed[number]) primes = primes + 1;
        number = number + 1;
    }
    return primes;
}

int sieve() {
    char *crossed = calloc(4096, 1);
    if (crossed == NULL) exit(1);
    int number = 2;
    while (number * number < 4096) {
        if (!crossed[number]) cross(crossed, number);
        number = number + 1;
    }
    int primes = count(crossed);
    free(crossed);
    return primes;
}

int main() {
    int turn = 1;
    while (turn < 10) {
        sieve();
        turn = turn + 1;
    }
    print(sieve());
    putchar('\n');
    return 0;
}
