/* What the two players share: the lines of `tctool sim`, and the words of a script. The script is standard input, and
 * was written by tests/session/script, so every line of it is readable. */
#ifndef LINES_H
#define LINES_H

#include "sedgechisel_nodes.h"
#include <stdio.h>
#include <stdlib.h>
#include <string.h>

enum { LONGEST_LINE = 4096 };

static struct sedge_config config;
static uint8_t octets[LONGEST_LINE], packet[65542];

static void give_up(const char *why) {
    fprintf(stderr, "play: %s\n", why);
    exit(3);
}

static void write_digits(const char *word, const uint8_t *from, size_t count) {
    size_t at;
    printf("%s ", word);
    for (at = 0; at < count; at++) printf("%02X", from[at]);
    printf("\n");
}

static void write_fault(const char *word, uint8_t number, struct sedge_text name) {
    printf("%s %d %s\n", word, number, name.text);
}

static void write_received(const struct sedge_received *it) {
    switch (it->kind) {
    case 1: write_fault("invalid", it->fault, sedge_tc_fault_name(it->fault)); break;
    case 2: printf("foreign\n"); break;
    case 3:
        printf("AD %d %s", it->n, sedge_verdict_name(it->verdict).text);
        if (it->ready > 0) printf(" ready");
        if (it->ready > 1) printf(" %zu", it->ready);
        if (it->dropped != 0) printf(" dropped %s", sedge_dropped_name(it->dropped).text);
        printf("\n");
        break;
    case 4: printf(it->kept ? "BD kept\n" : "BD dropped\n"); break;
    default: printf(it->command ? "BC set %d\n" : "BC unlock\n", it->vr);
    }
}

static void write_heard(const struct sedge_heard *it) {
    if (it->kind == 1) {
        write_fault("invalid", it->fault, sedge_tm_fault_name(it->fault));
    } else if (it->kind == 2) {
        printf("foreign\n");
    } else {
        if (it->first) {
            printf("gap=-");
        } else {
            printf("gap=%d", it->missing);
        }
        printf(" packets=%zu", it->packets);
        if (it->alert != 0) printf(" alert %s", sedge_alert_name(it->alert).text);
        printf("\n");
    }
}

/* What became of a report that came by itself. */
static void write_word(const struct sedge_heard *it) {
    if (it->report == 1) {
        write_fault("invalid", it->word_fault, sedge_clcw_fault_name(it->word_fault));
    } else if (it->report == 2) {
        printf("foreign\n");
    } else {
        printf(it->alert == 0 ? "ok\n" : "alert %s\n", sedge_alert_name(it->alert).text);
    }
}

/* The octets that digits spell, in `octets`; their number. */
static size_t octets_of(const char *digits) {
    size_t count = 0;
    unsigned octet;
    for (; sscanf(digits, "%2x", &octet) == 1; digits += 2) octets[count++] = (uint8_t)octet;
    return count;
}

static void configures(const char *name, const char *value) {
    uint8_t number = 1;
    while (number < 255 && strcmp(sedge_parameter_name(number).text, name) != 0) number++;
    if (!sedge_config_set(&config, number, strtoull(value, NULL, 10))) give_up("there is no such parameter");
}

/* Reads the script: each event's words, of which those that it lacks are "". */
static void read_script(void (*plays)(const char *word, const char *one, const char *two)) {
    static char line[LONGEST_LINE], word[16], one[LONGEST_LINE], two[LONGEST_LINE];
    sedge_config_default(&config);
    while (fgets(line, sizeof line, stdin) != NULL) {
        *word = *one = *two = 0;
        if (sscanf(line, "%15s %4095s %4095s", word, one, two) < 1) continue;
        if (strcmp(word, "config") == 0) {
            configures(one, two);
        } else {
            plays(word, one, two);
        }
    }
}

#endif
