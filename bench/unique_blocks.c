// unique_blocks.cyc in C, with malloc and free.
#include <stdio.h>
#include <stdlib.h>

struct Block { unsigned number; unsigned turn; int weight; };

struct Block *queue[100];

void print(unsigned value) {
    if (value >= 10u) print(value / 10u);
    putchar('0' + value % 10u);
}

unsigned used(struct Block *block, unsigned sum) {
    if (block == NULL) return sum;
    sum = sum + block->number * block->weight + block->turn;
    free(block);
    return sum;
}

int main() {
    unsigned number = 1;
    unsigned sum = 0;
    unsigned turn = 0;
    while (turn < 100000u) {
        number = (number * 5 + 3) % 65536;
        struct Block *block = malloc(sizeof *block);
        if (block == NULL) exit(1);
        block->number = number;
        block->turn = turn;
        block->weight = 2;
        struct Block *first = queue[turn % 100];
        queue[turn % 100] = block;
        sum = used(first, sum);
        turn = turn + 1;
    }
    turn = 0;
    while (turn < 100u) {
        struct Block *first = queue[turn];
        queue[turn] = NULL;
        sum = used(first, sum);
        turn = turn + 1;
    }
    print(sum);
    putchar('\n');
    return 0;
}
