/* An interpreter of a small machine with a stack and two cells, and two programs for it: a switch over its operations. */
#include "export.h"

enum { STOP, PUSH, LOAD, STORE, ADD, SUB, MUL, HALF, ODD, JUMP, JUMP_IF_ZERO };

/* How many steps cell 0 takes to 1, where an even number is halved, and of an odd one n the next is 3 n + 1. */
static const u8 STEPS[] = {
    /*  0 */ PUSH, 0, STORE, 1,
    /*  4 */ LOAD, 0, PUSH, 1, SUB, JUMP_IF_ZERO, 42,
    /* 11 */ LOAD, 1, PUSH, 1, ADD, STORE, 1,
    /* 18 */ LOAD, 0, ODD, JUMP_IF_ZERO, 35,
    /* 23 */ LOAD, 0, PUSH, 3, MUL, PUSH, 1, ADD, STORE, 0, JUMP, 4,
    /* 35 */ LOAD, 0, HALF, STORE, 0, JUMP, 4,
    /* 42 */ LOAD, 1, STOP,
};

/* The product of the numbers from 1 to cell 0, modulo 2^32. */
static const u8 PRODUCT[] = {
    /*  0 */ PUSH, 1, STORE, 1,
    /*  4 */ LOAD, 0, JUMP_IF_ZERO, 24,
    /*  8 */ LOAD, 1, LOAD, 0, MUL, STORE, 1,
    /* 15 */ LOAD, 0, PUSH, 1, SUB, STORE, 0, JUMP, 4,
    /* 24 */ LOAD, 1, STOP,
};

/* What a program leaves on top of its stack, with this number in cell 0. */
static u32 run(const u8 *program, u32 number)
{
    u32 stack[8], cells[2] = {number, 0}, top = 0, at = 0;
    for (;;) {
        u8 operation = program[at++];
        switch (operation) {
        case STOP: return stack[top - 1];
        case PUSH: stack[top++] = program[at++]; break;
        case LOAD: stack[top++] = cells[program[at++]]; break;
        case STORE: cells[program[at++]] = stack[--top]; break;
        case ADD: top--; stack[top - 1] += stack[top]; break;
        case SUB: top--; stack[top - 1] -= stack[top]; break;
        case MUL: top--; stack[top - 1] *= stack[top]; break;
        case HALF: stack[top - 1] /= 2; break;
        case ODD: stack[top - 1] &= 1; break;
        case JUMP: at = program[at]; break;
        case JUMP_IF_ZERO: at = stack[--top] ? at + 1 : program[at]; break;
        default: __builtin_trap();
        }
    }
}

EXPORT(steps)
int steps(u32 number)
{
    return (int)run(STEPS, number);
}

EXPORT(product)
int product(u32 number)
{
    return (int)run(PRODUCT, number);
}
