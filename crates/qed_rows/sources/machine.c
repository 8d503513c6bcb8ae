// A small stack machine that is a switch and a table of functions, its programs in read-only data, and a reader of numbers that is a table of states.
#include "test.h"

enum { PUSH, ADD, SUB, MUL, DIV, REM, SWAP, DUP, OVER, DROP, JUMP, JUMP_IF, LOAD, STORE, CALL, RETURN, APPLY, STOP };
enum { SQUARE, NEGATE, HALVE };

u64 result[4];

static const signed char gcd[] = {
    PUSH, 84, PUSH, 36,
    DUP, JUMP_IF, 9, DROP, STOP,
    SWAP, OVER, REM, JUMP, 4,
};

static const signed char powers[] = {
    PUSH, 1, STORE, 0, PUSH, 12,
    CALL, 15, PUSH, 1, SUB, DUP, JUMP_IF, 6, STOP,
    LOAD, 0, PUSH, 3, MUL, STORE, 0, RETURN,
};

static const signed char divides[] = {
    PUSH, 100, PUSH, -7, DIV, PUSH, -100, PUSH, 7, REM, ADD,
    APPLY, SQUARE, APPLY, HALVE, APPLY, NEGATE, STOP,
};

static const signed char *const programs[] = {gcd, powers, divides};
static i64 cells[4], stack[16];

static i64 square(i64 a) { return a * a; }
static i64 negate(i64 a) { return -a; }
static i64 halve(i64 a) { return a / 2; }
static i64 (*const functions[])(i64) = {square, negate, halve};

static i64 runs(const signed char *code) {
    i32 pc = 0, sp = 0, steps = 0, back = 0;
    i64 held;
    for (;;) {
        steps++;
        switch (code[pc++]) {
        case PUSH: stack[sp++] = code[pc++]; break;
        case ADD: sp--; stack[sp - 1] += stack[sp]; break;
        case SUB: sp--; stack[sp - 1] -= stack[sp]; break;
        case MUL: sp--; stack[sp - 1] *= stack[sp]; break;
        case DIV: sp--; stack[sp - 1] /= stack[sp]; break;
        case REM: sp--; stack[sp - 1] %= stack[sp]; break;
        case SWAP: held = stack[sp - 1]; stack[sp - 1] = stack[sp - 2]; stack[sp - 2] = held; break;
        case DUP: stack[sp] = stack[sp - 1]; sp++; break;
        case OVER: stack[sp] = stack[sp - 2]; sp++; break;
        case DROP: sp--; break;
        case JUMP: pc = code[pc]; break;
        case JUMP_IF: pc = stack[--sp] ? code[pc] : pc + 1; break;
        case LOAD: stack[sp++] = cells[code[pc++]]; break;
        case STORE: cells[code[pc++]] = stack[--sp]; break;
        case CALL: back = pc + 1; pc = code[pc]; break;
        case RETURN: pc = back; break;
        case APPLY: stack[sp - 1] = functions[code[pc++]](stack[sp - 1]); break;
        default: result[3] += (u64)steps; return stack[sp - 1];
        }
    }
}

enum { BEFORE, SIGN, WHOLE, POINT, FRACTION, WRONG };
enum { DIGIT, DOT, MINUS, OTHER };

static const u8 next_state[][4] = {
    [BEFORE] = {WHOLE, POINT, SIGN, WRONG},
    [SIGN] = {WHOLE, POINT, WRONG, WRONG},
    [WHOLE] = {WHOLE, FRACTION, WRONG, WRONG},
    [POINT] = {FRACTION, WRONG, WRONG, WRONG},
    [FRACTION] = {FRACTION, WRONG, WRONG, WRONG},
    [WRONG] = {WRONG, WRONG, WRONG, WRONG},
};

static int kind(char c) {
    switch (c) {
    case '0': case '1': case '2': case '3': case '4': case '5': case '6': case '7': case '8': case '9': return DIGIT;
    case '.': return DOT;
    case '-': return MINUS;
    default: return OTHER;
    }
}

static int last_state(const char *text) {
    int state = BEFORE;
    for (; *text; text++)
        state = next_state[state][kind(*text)];
    return state;
}

static const char *const texts[] = {"-12.5", "7", ".25", "1-1", "--3", "x", "", "-"};

int main(void) {
    for (i32 i = 0; i < 3; i++)
        result[i == 1] = mixed(result[i == 1], (u64)runs(programs[i]));
    result[1] = (u64)cells[0];
    for (i32 i = 0; i < 8; i++)
        result[2] = result[2] * 8 + (u64)last_state(texts[i]);
    return 0;
}
