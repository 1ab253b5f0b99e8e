/* Compares the texts of sedgechisel_faults.h with the words of both libraries: each text begins with its number and the
 * number's word, and each number that has a word has a text. Ends with 1 if one differs. */
#include <sedgechisel_faults.h>
#include <sedgechisel_nodes.h>
#include <stdio.h>
#include <string.h>

/* The texts of an enumeration, and its words. */
struct texts {
    const char *what;
    const char *(*text)(uint8_t);
    struct sedge_text (*name)(uint8_t);
};

static const struct texts ALL[] = {
    {"clcw_fault", sedge_clcw_fault_text, sedge_clcw_fault_name},
    {"cop_fault", sedge_cop_fault_text, sedge_cop_fault_name},
    {"tc_fault", sedge_tc_fault_text, sedge_tc_fault_name},
    {"packet_fault", sedge_packet_fault_text, sedge_packet_fault_name},
    {"tm_fault", sedge_tm_fault_text, sedge_tm_fault_name},
    {"map_fault", sedge_map_fault_text, sedge_map_fault_name},
    {"log_fault", sedge_log_fault_text, sedge_log_fault_name},
    {"link_fault", sedge_link_fault_text, sedge_link_fault_name},
    {"sim_fault", sedge_sim_fault_text, sedge_sim_fault_name},
    {"ledger_fault", sedge_ledger_fault_text, sedge_ledger_fault_name},
    {"parameter", sedge_parameter_text, sedge_parameter_name},
};

static int wrong;

static void differs(const struct texts *it, unsigned number, const char *text, const char *name) {
    printf("%s %u: %s, and the word is %s\n", it->what, number, text, name);
    wrong = 1;
}

/* (the core has the words Memory and State of two faults of the crates below, which no call of its own returns) */
static void look(const struct texts *it, unsigned number) {
    const char *text = it->text((uint8_t)number);
    struct sedge_text name = it->name((uint8_t)number);
    int is_of_crates = strcmp(name.text, "Memory") == 0 || strcmp(name.text, "State") == 0;
    char begins[40];
    snprintf(begins, sizeof begins, "%u %s: ", number, name.text);
    if (strcmp(text, "?") == 0) {
        if (strcmp(name.text, "?") != 0 && !is_of_crates) differs(it, number, text, name.text);
    } else if (number < 252 && strncmp(text, begins, strlen(begins)) != 0) {
        differs(it, number, text, name.text);
    } else if (number >= 252 && (unsigned)(text[2] - '0') + 250 != number) {
        differs(it, number, text, name.text);
    }
}

int main(void) {
    for (size_t k = 0; k < sizeof ALL / sizeof ALL[0]; k++)
        for (unsigned number = 0; number < 256; number++) look(&ALL[k], number);
    /* of each kind of fallback, a number that it has */
    if (strcmp(sedge_tc_fault_text(SEDGE_DAMAGED), sedge_status_text(SEDGE_DAMAGED)) != 0) wrong = 1;
    if (strcmp(sedge_sim_fault_text(SEDGE_NODE_NONE), sedge_link_fault_text(SEDGE_NODE_NONE)) != 0) wrong = 1;
    if (strcmp(sedge_sim_fault_text(SEDGE_NODE_NOT_OPEN), "?") != 0) wrong = 1;
    if (strcmp(sedge_ledger_fault_text(SEDGE_NODE_NONE), sedge_link_fault_text(SEDGE_NODE_NONE)) != 0) wrong = 1;
    if (strcmp(sedge_ledger_fault_text(10), "?") != 0) wrong = 1;
    puts(wrong ? "Some texts are wrong." : "All is as wanted.");
    return wrong;
}
