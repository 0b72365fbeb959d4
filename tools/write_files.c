/* Writes the files code.txt and frame.txt in the current folder from the numbers on standard input, with the calls for
 * C: n, the N map bytes, the n × N/2 coefficients and the 64 × N penalties, with blanks or line feeds between them.
 * Input that ends after the coefficients gets no frame.txt. Writes nothing and prints the number of the refusal, with
 * exit status 1, where a call refuses; says so where a number is missing or too large for its place. */
#include <stdint.h>
#include <stdio.h>

uint8_t zithejo_write_sheet(size_t n, const uint8_t *map, size_t map_length, const uint8_t *coefs, size_t coefs_length,
                            uint8_t *out, size_t out_length);
uint8_t zithejo_write_frame_line(const uint16_t *penalties, size_t count, uint8_t *line, size_t line_length);

enum { PLACES = 256, KERNELS = 1024, VALUES = 64, SHEET_LINE = 5, FRAME_LINE = 257 };

static uint8_t map[PLACES];
static uint8_t coefs[KERNELS];
static uint16_t penalties[PLACES * VALUES];
static uint8_t sheet[SHEET_LINE * (1 + PLACES + KERNELS)];
static uint8_t frame[PLACES * FRAME_LINE];

/* The next number, from 0 to most; -1 at the end of the input, -2 for anything else. */
static long next(long most) {
    long number;
    int found = scanf("%ld", &number);
    if (found == EOF)
        return -1;
    return found == 1 && 0 <= number && number <= most ? number : -2;
}

/* Reads that many bytes; 0 where one of them is missing or is no byte. */
static int read_bytes(uint8_t *bytes, size_t count) {
    for (size_t i = 0; i < count; i++) {
        long number = next(255);
        if (number < 0)
            return 0;
        bytes[i] = (uint8_t)number;
    }
    return 1;
}

/* Reads that many penalties: 1, 0 where one is missing or too large, -1 where the input ends before the first. */
static int read_penalties(size_t count) {
    for (size_t i = 0; i < count; i++) {
        long number = next(65535);
        if (number < 0)
            return i == 0 && number == -1 ? -1 : 0;
        penalties[i] = (uint16_t)number;
    }
    return next(0) == -1;
}

/* Writes a file; 0 where that fails. */
static int write_file(const char *name, const uint8_t *bytes, size_t length) {
    FILE *file = fopen(name, "wb");
    if (file == NULL)
        return 0;
    int written = fwrite(bytes, 1, length, file) == length;
    return fclose(file) == 0 && written;
}

/* Says what is wrong. */
static int fail(const char *what) {
    fprintf(stderr, "%s\n", what);
    return 2;
}

/* Writes the lines of all places into `frame`: 0, or the number by which the first line that is refused is. */
static uint8_t write_lines(size_t places) {
    for (size_t i = 0; i < places; i++) {
        uint8_t refused =
            zithejo_write_frame_line(penalties + VALUES * i, VALUES, frame + FRAME_LINE * i, FRAME_LINE);
        if (refused != 0)
            return refused;
    }
    return 0;
}

int main(void) {
    long n = next(1000000000);
    if (n < 0)
        return fail("no n");
    size_t places = 1 <= n && n <= 8 ? (size_t)1 << n : 0;
    size_t kernels = (size_t)n * (places / 2);
    size_t length = SHEET_LINE * (1 + places + kernels);
    if (!read_bytes(map, places) || !read_bytes(coefs, kernels))
        return fail("a map byte or a coefficient is missing or above 255");
    int framed = read_penalties(VALUES * places);
    if (places > 0 && framed == 0)
        return fail("a penalty is missing or above 65535, or a number is left");
    uint8_t refused = zithejo_write_sheet((size_t)n, map, places, coefs, kernels, sheet, places == 0 ? 0 : length);
    if (refused == 0 && framed == 1)
        refused = write_lines(places);
    if (refused != 0) {
        printf("%d\n", refused);
        return 1;
    }
    if (!write_file("code.txt", sheet, length))
        return fail("code.txt can't be written");
    if (framed == 1 && !write_file("frame.txt", frame, FRAME_LINE * places))
        return fail("frame.txt can't be written");
    return 0;
}
