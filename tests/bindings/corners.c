/* The corners of the calls for C: what is not a kind, buffers of each size, faults, and memory that runs out. It is
   linked with malloc, realloc and free wrapped. Prints the version, each fault with its words, and what differs from
   what is expected. */
#include <helgrothy.h>
#include <stdio.h>
#include <string.h>

void *__real_malloc(size_t size);
void *__real_realloc(void *block, size_t size);
void __real_free(void *block);

static long asked, failing, held;

void *__wrap_malloc(size_t size) {
    void *block = ++asked == failing ? NULL : __real_malloc(size);
    held += block != NULL;
    return block;
}

void *__wrap_realloc(void *old, size_t size) {
    void *block = ++asked == failing ? NULL : __real_realloc(old, size);
    held += old == NULL && block != NULL;
    return block;
}

void __wrap_free(void *block) {
    held -= block != NULL;
    __real_free(block);
}

static int wrong;
#define EXPECT(holds) ((holds) ? (void)0 : (void)(wrong = 1, printf("line %d: %s\n", __LINE__, #holds)))

static const char seven[] = "a b c d e f g\nc e\na d g\nb c f\na d f\nb g\nd e g\n";
static const char listing[] = "1:\n a d f (2 of 2)\n b g (1 of 1)\n c e (1 of 1)\n";
enum { LISTED = sizeof listing - 1 };
static uint64_t seed;

static uint32_t list(uint32_t kind, uint64_t limit, char *buffer, size_t room, size_t *used) {
    memset(buffer, '#', 2 * LISTED);
    return helgrothy_list(kind, seven, strlen(seven), seed, 1, limit, buffer, room, used);
}

static int is(const char *buffer, size_t used) {
    for (size_t i = used; i < 2 * LISTED; i++)
        if (buffer[i] != '#') return 0;
    return memcmp(buffer, listing, used) == 0;
}

static void faulty(uint32_t kind, const char *text, uint64_t line_wanted, uint32_t wanted) {
    uint64_t line = 9, count = 9;
    uint32_t fault = 9;
    uint32_t status = wanted ? HELGROTHY_FAULT : HELGROTHY_DONE;
    EXPECT(helgrothy_fault(kind, text, strlen(text), seed, &line, &fault) == status && line == line_wanted
           && fault == wanted);
    EXPECT(!wanted || (helgrothy_count(kind, text, strlen(text), seed, 9, &count) == HELGROTHY_FAULT && count == 0));
}

int main(void) {
    char buffer[2 * LISTED];
    size_t used;
    uint64_t count, line;
    uint32_t fault;

    EXPECT(helgrothy_version() == HELGROTHY_VERSION);
    printf("%d.%d.%d\n", HELGROTHY_VERSION / 10000, HELGROTHY_VERSION / 100 % 100, HELGROTHY_VERSION % 100);
    for (fault = 1; strcmp(helgrothy_fault_text(fault), "unknown fault") != 0; fault++)
        printf("%u %s\n", fault, helgrothy_fault_text(fault));
    EXPECT(strcmp(helgrothy_fault_text(0), "no fault") == 0);
    EXPECT(strcmp(helgrothy_fault_text(UINT32_MAX), "unknown fault") == 0);

    uint64_t seeds[] = {0, UINT64_MAX, 12345};
    for (uint32_t kind = HELGROTHY_PLAIN; kind <= HELGROTHY_BOUNDS; kind++) {
        seed = seeds[kind - 1];
        for (size_t room = 0; room < LISTED; room++)
            EXPECT(list(kind, 2, buffer, room, &used) == HELGROTHY_NO_ROOM && used == room && is(buffer, room));
        for (size_t room = LISTED; room <= 2 * LISTED; room++)
            EXPECT(list(kind, 2, buffer, room, &used) == HELGROTHY_DONE && used == LISTED && is(buffer, LISTED));
        EXPECT(list(kind, 1, buffer, LISTED, &used) == HELGROTHY_LIMIT && used == LISTED && is(buffer, LISTED));
        EXPECT(list(kind, 0, buffer, 0, &used) == HELGROTHY_LIMIT && used == 0 && is(buffer, 0));
        EXPECT(helgrothy_count(kind, seven, strlen(seven), seed, 2, &count) == HELGROTHY_DONE && count == 1);
        EXPECT(helgrothy_count(kind, seven, strlen(seven), seed, 1, &count) == HELGROTHY_LIMIT && count == 1);
    }

    uint32_t none[] = {0, 4, UINT32_MAX};
    for (int i = 0; i < 3; i++) {
        EXPECT(list(none[i], 2, buffer, LISTED, &used) == HELGROTHY_NO_KIND && used == 0 && is(buffer, 0));
        EXPECT(helgrothy_count(none[i], seven, strlen(seven), seed, 2, &count) == HELGROTHY_NO_KIND && count == 0);
        EXPECT(helgrothy_fault(none[i], seven, 0, seed, &line, &fault) == HELGROTHY_NO_KIND && line == 0 && fault == 0);
    }

    faulty(HELGROTHY_PLAIN, seven, 0, 0);
    faulty(HELGROTHY_PLAIN, "", 1, 1);
    faulty(HELGROTHY_PLAIN, "| hi", 2, 1);
    faulty(HELGROTHY_BOUNDS, "2|", 1, 3);
    faulty(HELGROTHY_PLAIN, "123456789012345678901234567890123", 1, 4);
    faulty(HELGROTHY_PLAIN, "B|x A", 1, 5);
    faulty(HELGROTHY_PLAIN, "A A", 1, 6);
    faulty(HELGROTHY_PLAIN, "A | | x", 1, 7);
    faulty(HELGROTHY_BOUNDS, "B|x A", 1, 8);
    faulty(HELGROTHY_BOUNDS, "2:1|A", 1, 9);
    faulty(HELGROTHY_BOUNDS, "A |1|x", 1, 10);
    faulty(HELGROTHY_PLAIN, "A\nB", 2, 11);
    faulty(HELGROTHY_PLAIN, "A B\nA B A", 2, 12);
    faulty(HELGROTHY_COLOURS, "A | x\nA:1", 2, 13);
    faulty(HELGROTHY_COLOURS, "A | x\nA x:", 2, 14);
    faulty(HELGROTHY_PLAIN, "A | x\nA x:1", 2, 15);
    EXPECT(helgrothy_fault(HELGROTHY_PLAIN, "A\0B", 3, seed, &line, &fault) == HELGROTHY_FAULT && line == 1
           && fault == 2);

    /* Each allocation fails in turn: the call answers so and did nothing, or as ever. All memory is given back. */
    uint32_t status = HELGROTHY_NO_MEMORY;
    for (failing = 1; status == HELGROTHY_NO_MEMORY || asked >= failing; failing++) {
        asked = 0;
        status = list(HELGROTHY_BOUNDS, 2, buffer, LISTED, &used);
        EXPECT(status == HELGROTHY_NO_MEMORY ? used == 0 && is(buffer, 0)
               : status == HELGROTHY_DONE && used == LISTED && is(buffer, LISTED));
        EXPECT(held == 0);
    }
    EXPECT(failing > 9);
    for (status = HELGROTHY_NO_MEMORY, failing = 1; status == HELGROTHY_NO_MEMORY || asked >= failing; failing++) {
        asked = 0;
        status = helgrothy_count(HELGROTHY_PLAIN, seven, strlen(seven), seed, 2, &count);
        EXPECT(status == HELGROTHY_NO_MEMORY ? count == 0 : status == HELGROTHY_DONE && count == 1);
        EXPECT(held == 0);
    }
    for (status = HELGROTHY_NO_MEMORY, failing = 1; status == HELGROTHY_NO_MEMORY || asked >= failing; failing++) {
        asked = 0;
        status = helgrothy_fault(HELGROTHY_PLAIN, "A\nB", 3, seed, &line, &fault);
        EXPECT(status == HELGROTHY_NO_MEMORY ? line == 0 && fault == 0
               : status == HELGROTHY_FAULT && line == 2 && fault == 11);
        EXPECT(held == 0);
    }
    return wrong;
}
