/* Traces the sums of the first three squares, and ends with the last of them. */
#define TRACE (*(volatile unsigned *)0x80000000u)

int main(void) {
    unsigned sum = 0;
    for (unsigned n = 1; n <= 3; n++) {
        sum += n * n;
        TRACE = sum;
    }
    return (int)sum;
}
