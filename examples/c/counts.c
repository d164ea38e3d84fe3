/* Prints how many of a screen's 105 cells each colorant gets for one colour. Its output is counts.expected. */
#include <cavzemil.h>

#include <inttypes.h>
#include <stdio.h>

int main(void) {
    cavzemil_made made = cavzemil_make_screen(4, 7, 105, 2, 0);
    if (made.refusal != CAVZEMIL_SERVED) {
        fprintf(stderr, "counts: %s\n", cavzemil_refusal_text(made.refusal));
        return 1;
    }
    cavzemil_counts counts = cavzemil_counts_of(made.screen, CAVZEMIL_DEMICHEL, 128, 128, 0);
    printf("refusal %" PRIu32 ":", counts.refusal);
    for (int colorant = CAVZEMIL_CYAN; colorant <= CAVZEMIL_WHITE; colorant++) {
        printf(" %" PRIu32, counts.of[colorant]);
    }
    printf("\n");
    return 0;
}
