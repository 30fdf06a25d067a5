/* Prints the covers of a problem, or its first fault. */
#include <helgrothy.h>
#include <stdio.h>
#include <string.h>
#include <sys/random.h>

static void solve(const char *text, uint64_t seed) {
    char listing[1000];
    size_t used, length = strlen(text);
    uint64_t line;
    uint32_t fault, status = helgrothy_list(HELGROTHY_PLAIN, text, length, seed, 1, 10, listing, sizeof listing, &used);
    if (status == HELGROTHY_FAULT && helgrothy_fault(HELGROTHY_PLAIN, text, length, seed, &line, &fault) == status)
        printf("line %llu: %s\n", (unsigned long long)line, helgrothy_fault_text(fault));
    else
        printf("%.*sstatus %u\n", (int)used, listing, status);
}

int main(void) {
    uint64_t seed;
    if (getrandom(&seed, sizeof seed, 0) < 0) return 1;
    solve("a b c d e f g\nc e\na d g\nb c f\na d f\nb g\nd e g\n", seed);
    solve("a b\na c\n", seed);
    return 0;
}
