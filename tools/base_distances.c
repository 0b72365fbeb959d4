/* Says how near the shifts of a base lie, with the calls for C. Standard input has five numbers, with blanks or line
 * feeds between them: the base, a number d of chips, an amplitude, and top and bottom of a gain; after them there can
 * be five more, and so on. Prints for each five the least distance; a line for each shift within d chips, with its
 * distance; and whether the premise of the noiseless statement holds, 1 for yes and 0 for no. A call that refuses has
 * the number of the refusal in place of this. Ends with exit status 1 where a number is missing or too large. */
#include <inttypes.h>
#include <stdio.h>

uint8_t zithejo_shift_distance(uint64_t base, uint64_t s, uint32_t *distance);
uint8_t zithejo_least_distance(uint64_t base, uint32_t *distance);
uint8_t zithejo_shifts_within(uint64_t base, uint32_t d, uint8_t *shifts, size_t length, uint32_t *count);
uint8_t zithejo_premise_holds(uint64_t base, uint32_t amplitude, uint32_t top, uint32_t bottom, uint32_t *holds);

enum { SHIFTS = 63 };

/* Prints a line with what was answered: a value, or the refusal. */
static void print_answer(const char *what, uint8_t refused, uint32_t value) {
    if (refused)
        printf("%s refused %u\n", what, refused);
    else
        printf("%s %" PRIu32 "\n", what, value);
}

/* Prints the shifts within d chips, each with its distance. */
static void print_shifts(uint64_t base, uint32_t d) {
    uint8_t shifts[SHIFTS];
    uint32_t count = 0;
    uint8_t refused = zithejo_shifts_within(base, d, shifts, SHIFTS, &count);
    print_answer("within", refused, count);
    for (uint32_t i = 0; i < count; i++) {
        uint32_t distance = 0;
        zithejo_shift_distance(base, shifts[i], &distance);
        printf("%u %" PRIu32 "\n", shifts[i], distance);
    }
}

/* Reads a number of 32 bits; 0 where it is missing or too large. */
static int read_number(uint32_t *number) {
    uint64_t wide;
    if (scanf("%" SCNu64, &wide) != 1 || wide > UINT32_MAX)
        return 0;
    *number = (uint32_t)wide;
    return 1;
}

int main(void) {
    uint64_t base;
    int found;
    while ((found = scanf("%" SCNu64, &base)) == 1) {
        uint32_t d, amplitude, top, bottom, least = 0, holds = 0;
        if (!read_number(&d) || !read_number(&amplitude) || !read_number(&top) || !read_number(&bottom)) {
            puts("a number is missing or too large");
            return 1;
        }
        uint8_t refused = zithejo_least_distance(base, &least);
        print_answer("least", refused, least);
        print_shifts(base, d);
        refused = zithejo_premise_holds(base, amplitude, top, bottom, &holds);
        print_answer("premise", refused, holds);
    }
    return found == EOF ? 0 : 1;
}
