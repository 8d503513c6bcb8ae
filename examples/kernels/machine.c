/* A state machine over text, whose states are cases of one switch with a jump table: it sorts words into whole numbers,
   decimal numbers, names and others. Leaves how many of each there are. */
#include "kernel.h"

enum state { START, SIGN, WHOLE, POINT, DECIMAL, POWER, POWER_SIGN, EXPONENT, NAME, OTHER };

static const char text[] =
    "12 -7 3.25 x y1 +0.5 1e9 -2.5e-3 abc 4x .5 7. 1e 1e+ -- count 99 0 a_b 3.1.4 65536 e1 +1 6.02e23 z9 ?";

static int is_digit(char c)
{
    return c >= '0' && c <= '9';
}

static int is_letter(char c)
{
    return (c >= 'a' && c <= 'z') || c == '_';
}

APART static enum state next_state(enum state state, char c)
{
    switch (state) {
    case START:
        return is_digit(c) ? WHOLE : c == '+' || c == '-' ? SIGN : c == '.' ? POINT : is_letter(c) ? NAME : OTHER;
    case SIGN:
        return is_digit(c) ? WHOLE : c == '.' ? POINT : OTHER;
    case WHOLE:
        return is_digit(c) ? WHOLE : c == '.' ? DECIMAL : c == 'e' ? POWER : OTHER;
    case POINT:
        return is_digit(c) ? DECIMAL : OTHER;
    case DECIMAL:
        return is_digit(c) ? DECIMAL : c == 'e' ? POWER : OTHER;
    case POWER:
        return is_digit(c) ? EXPONENT : c == '+' || c == '-' ? POWER_SIGN : OTHER;
    case POWER_SIGN:
        return is_digit(c) ? EXPONENT : OTHER;
    case EXPONENT:
        return is_digit(c) ? EXPONENT : OTHER;
    case NAME:
        return is_letter(c) || is_digit(c) ? NAME : OTHER;
    default:
        return OTHER;
    }
}

APART static int kind(enum state state)
{
    switch (state) {
    case WHOLE:
        return 0;
    case DECIMAL:
    case EXPONENT:
        return 1;
    case NAME:
        return 2;
    default:
        return 3;
    }
}

int main(void)
{
    const char *at = text;
    enum state state = START;
    for (;; at++) {
        if (*at && *at != ' ') {
            state = next_state(state, *at);
            continue;
        }
        result[kind(state)] += one;
        state = START;
        if (!*at)
            return 0;
    }
}
