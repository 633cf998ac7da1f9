// Reads doubles from standard input, as bytes, and writes the sine and the cosine of each.
#include <stdio.h>

double probe_sin(double x);
double probe_cos(double x);

int main(void)
{
    double x;
    while (fread(&x, sizeof x, 1, stdin) == 1) {
        double answers[2] = { probe_sin(x), probe_cos(x) };
        if (fwrite(answers, sizeof answers, 1, stdout) != 1) return 1;
    }
    return 0;
}
