% One web, three files: stack.h, stack.c and calc.c.
% What seldom changes comes first: text that is put in above a file moves its line marks.

@* A stack. Its header is a file of its own, since an at sign and a parenthesis open its name.

@(stack.h@>=
void push(double number);
double pop(void);

@ So is its code. An empty stack gives 0.

@(stack.c@>=
#include "stack.h"

static double numbers[100];
static int depth;

void push(double number)
{
    if (depth < 100)
        numbers[depth++] = number;
}

double pop(void)
{
    return depth > 0 ? numbers[--depth] : 0;
}

@* A calculator. It takes numbers and signs, each sign after its two numbers, and prints the result.

@c
#include <stdio.h>
#include <stdlib.h>
#include "stack.h"

int main(int count, char **arguments)
{
    for (int at = 1; at < count; at++) {
        char *argument = arguments[at];
        @<Push the number, or what the sign makes of two numbers@>
    }
    printf("%g\n", pop());
    return 0;
}

@ @<Push the number...@>=
double second, first;
switch (argument[1] == '\0' ? argument[0] : '0') {
case '+':
    push(pop() + pop());
    break;
case 'x':
    push(pop() * pop());
    break;
case '-':
    second = pop();
    first = pop();
    push(first - second);
    break;
default:
    push(atof(argument));
}
