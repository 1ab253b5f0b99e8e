/* The words of the core for every number, with what docs/PROFILE.md and the header have of them, and the version: a
 * compiler of C alone is needed. Ends with 1 where one differs. */
#include <stdio.h>
#include <string.h>
#include "sedgechisel.h"

/* The words of an enumeration, in order from its first number. */
struct words {
    struct sedge_text (*name)(uint8_t);
    const char *what;
    unsigned first;
    const char *words;
};

static const struct words ALL[] = {
    {sedge_clcw_fault_name, "sedge_clcw_fault_name", 1, "Kind Version Cop Spare Range"},
    {sedge_cop_fault_name, "sedge_cop_fault_name", 1, "Width Window Limit Timer Memory NotOpen Busy WrongState State"},
    {sedge_verdict_name, "sedge_verdict_name", 0, "accepted ahead nobuffer behind outside discarded"},
    {sedge_alert_name, "sedge_alert_name", 1, "Lockout NnR Clcw Synch Limit Timer Terminated"},
    {sedge_tc_fault_name, "sedge_tc_fault_name", 1,
     "Short Version ReservedType Spare Length Check BypassNumber EmptyData Command Room FieldRange Memory"},
    {sedge_packet_fault_name, "sedge_packet_fault_name", 1, "Truncated Version IdleWithSecondary Room FieldRange Memory"},
    {sedge_tm_fault_name, "sedge_tm_fault_name", 1,
     "Length Version Check Status Pointer NoOcf Memory NotAPacket Room FieldRange"},
    {sedge_map_fault_name, "sedge_map_fault_name", 1, "NotAPacket TooLong Memory"},
    {sedge_dropped_name, "sedge_dropped_name", 1, "ClosedMap Interrupted NoBeginning NotAPacket TooLong"},
    {sedge_log_fault_name, "sedge_log_fault_name", 1,
     "Layout Check Starting Busy Lost Behind Ahead OtherBoot NotLost OtherMark FieldRange Room"},
};

/* Word k of words between spaces, with zeros after it; "?" where there is none. */
static struct sedge_text word_of(const char *words, unsigned k) {
    struct sedge_text word = {"?"};
    size_t length;
    for (; k > 0 && words != NULL; k--) {
        words = strchr(words, ' ');
        words = words == NULL ? NULL : words + 1;
    }
    if (words == NULL) return word;
    length = strcspn(words, " ");
    memset(&word, 0, sizeof word);
    memcpy(word.text, words, length);
    return word;
}

static int wrong;

static void look(const struct words *it) {
    for (unsigned n = 0; n < 256; n++) {
        struct sedge_text wanted = {"?"}, got = it->name((uint8_t)n);
        if (n >= it->first) wanted = word_of(it->words, n - it->first);
        if (memcmp(&wanted, &got, sizeof got) == 0) continue;
        printf("%s of %u is %.20s, and not %s\n", it->what, n, got.text, wanted.text);
        wrong = 1;
    }
}

/* An alert has a sentence with zeros after it, and another number "?". */
static void advice(void) {
    for (unsigned n = 0; n < 256; n++) {
        struct sedge_advice got = sedge_alert_advice((uint8_t)n), zeros = {{0}};
        size_t length = strnlen(got.text, sizeof got.text);
        bool is_alert = n >= 1 && n <= 7;
        if (is_alert ? length < 20 || length > 159 : strcmp(got.text, "?") != 0) wrong = 1;
        if (memcmp(got.text + length, zeros.text, sizeof got.text - length) != 0) wrong = 1;
        if (sedge_alert_shows_broken_condition((uint8_t)n) != (n >= 1 && n <= 4)) wrong = 1;
    }
    if (wrong) puts("what an alert says differs");
}

int main(void) {
    char wanted[20] = {0};
    struct sedge_text got = sedge_version();
    for (size_t k = 0; k < sizeof ALL / sizeof ALL[0]; k++) look(&ALL[k]);
    advice();
    (void)snprintf(wanted, sizeof wanted, "%d.%d.%d", SEDGE_VERSION_MAJOR, SEDGE_VERSION_MINOR, SEDGE_VERSION_PATCH);
    if (memcmp(wanted, got.text, sizeof wanted) != 0) wrong = puts("the version differs") >= 0;
    if (!wrong) puts("the words of every number from 0 to 255");
    return wrong;
}
