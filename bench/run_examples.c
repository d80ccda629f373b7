/* Runs a program of examples.c on the values of the example's file. */
#include <string.h>

void upto(int *, int *);
void clock_to_0(int *);
void sum(int *, int *);
void sort(int *);
void letters(int *, int *, int *);
void gcd(int *, int *);
void product(int *, int *, int *);
void factorial(int *, int *);
void pass(int *, int *);

volatile int sink;

int main(int argc, char **argv)
{
    const char *name = argc == 2 ? argv[1] : "";
    int n = 5, i = 0, hour = 4, s = 0, five[5] = {3, 1, 4, 1, 5}, f = 0, ten = 10;
    int twenty[20] = {20, 19, 18, 17, 16, 15, 14, 13, 12, 11, 10, 9, 8, 7, 6, 5, 4, 3, 2, 1};
    int text[6] = {98, 97, 110, 97, 110, 97}, letter = 97, x = 12, y = 18, six = 6, seven = -7;
    if (!strcmp(name, "upto")) upto(&n, &i);
    else if (!strcmp(name, "clock_to_0")) clock_to_0(&hour);
    else if (!strcmp(name, "sum")) sum(five, &s);
    else if (!strcmp(name, "sort")) sort(five);
    else if (!strcmp(name, "letters")) letters(text, &letter, &s);
    else if (!strcmp(name, "gcd")) gcd(&x, &y);
    else if (!strcmp(name, "product")) product(&six, &seven, &s);
    else if (!strcmp(name, "factorial")) factorial(&ten, &f);
    else if (!strcmp(name, "pass")) pass(twenty, &s);
    else return 1;
    sink = n + i + hour + s + five[0] + twenty[0] + f + x;
    return 0;
}
