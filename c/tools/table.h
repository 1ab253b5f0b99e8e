/* Makes the table of a machine from what its calls did. Each call that was tried belongs to one cell, and a cell states
 * for each field of the machine the word that was true of it each time. */
#include <stdbool.h>
#include <stdint.h>
#include <stdio.h>
#include <stdlib.h>

enum { FIELDS = 10, WORDS = 8, STATES = 6, KINDS_AT_MOST = 50, UNSEEN = -1 };

/* An event of the book, or of the profile alone where it has no number there. */
struct kind {
    const char *event;         /* its number in the book, or "-" */
    const char *what;
    const char *subject;       /* the list of rules of docs/PROFILE.md that has it */
    int rules[STATES];         /* the rule of that list in each state */
    const char *otherwise;     /* the states in which the profile is not as in the book, by their digits */
};

struct field {
    const char *name;
    const char *words[WORDS];  /* the first that was true each time is written */
};

struct cell {
    unsigned long seen;
    int after, answer;
    unsigned fits[FIELDS];     /* bit k: word k was true each time */
};

static inline unsigned bit(bool holds, unsigned place) {
    return holds ? 1u << place : 0;
}

/* Ends the program: what is written would not be one cell. */
static inline void fail(const char *what, const char *why) {
    fprintf(stderr, "tables: %s: %s\n", what, why);
    exit(3);
}

/* A call was tried: the state after it, its answer, and the words that were true of each field. */
static inline void see(struct cell *cell, const char *what, int after, int answer, const unsigned *fits) {
    int k;
    if (cell->seen++ == 0) {
        cell->after = after;
        cell->answer = answer;
        for (k = 0; k < FIELDS; k++) cell->fits[k] = ~0u;
    }
    if (cell->after != after) fail(what, "two states after it");
    if (cell->answer != answer) fail(what, "two answers");
    for (k = 0; k < FIELDS; k++) cell->fits[k] &= fits[k];
}

/* Writes the word of each field, with a comma before it. */
static inline void write_fields(const struct cell *cell, const char *what, const struct field *fields, int count) {
    int k, word;
    for (k = 0; k < count; k++) {
        for (word = 0; word < WORDS && fields[k].words[word] != NULL; word++)
            if (cell->fits[k] & bit(true, (unsigned)word)) break;
        if (word == WORDS || fields[k].words[word] == NULL) fail(what, fields[k].name);
        printf(",%s", fields[k].words[word]);
    }
}

static inline void write_names(const struct field *fields, int count) {
    int k;
    for (k = 0; k < count; k++) printf(",%s", fields[k].name);
}

/* With the copy of the library in which tools/c_rules.py marks the branches: which of them each kind took. */
#ifdef MARKED
#include MARKED
static unsigned char took[MARKS][KINDS_AT_MOST][STATES];

static inline void note(int kind, int state) {
    for (; many > 0; is_passed[passed[many]] = 0) took[passed[--many]][kind][state - 1] = 1;
}

/* Writes a line for each branch, and each kind in a state that took it: its number, the subject and the rule. */
static inline bool writes_marks(const struct kind *kinds, int count) {
    int k, kind, state;
    for (k = 0; k < MARKS; k++)
        for (kind = 0; kind < count; kind++)
            for (state = 0; state < STATES; state++) {
                const struct kind *it = &kinds[kind];
                if (!took[k][kind][state]) continue;
                if (it->subject[0] == '\0') printf("%d,E,%s\n", k, it->event + 1);
                else printf("%d,%s,%d\n", k, it->subject, it->rules[state]);
            }
    return true;
}
#else
static inline void note(int kind, int state) {
    (void)kind;
    (void)state;
}

static inline bool writes_marks(const struct kind *kinds, int count) {
    (void)kinds;
    (void)count;
    return false;
}
#endif

/* What docs/PROFILE.md says of the kind in a state. */
static inline const char *profile_says(const struct kind *kind, int state) {
    const char *at;
    for (at = kind->otherwise; *at != '\0'; at++)
        if (*at == '0' + state) return "otherwise";
    return "as in the book";
}
