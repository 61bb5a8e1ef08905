/*
 * The desk from C, on the six rules of the paper: builds the index, looks up, shows a rule, lists the pairs and judges moves.
 * What it prints is held to examples/desk.stdout.
 */
#include <inttypes.h>
#include <stdio.h>
#include <string.h>

#include "ruledesk.h"

#define RULES 6
#define TABLE_BYTES (RULES * RULEDESK_RECORD_BYTES)
#define WORDS 198

/* a.0.0.0/l to b.0.0.0/m, delivered to a feed */
#define RULE(a, l, b, m, feed) a, 0, 0, 0, b, 0, 0, 0, 0, 0, 0, 0, 0, l, m, 0, 0, 0, 1, feed, 0, 0, 0, 0

static const uint8_t six_rules[TABLE_BYTES] = {
    RULE(0, 1, 128, 2, 10),    RULE(0, 2, 128, 1, 100),   RULE(192, 2, 192, 2, 10),
    RULE(224, 3, 224, 3, 100), RULE(160, 3, 128, 2, 100), RULE(0, 0, 64, 2, 10),
};

static void say_bytes(const uint8_t *bytes, size_t length) {
    for (size_t i = 0; i < length; i++) {
        printf(" %02x", bytes[i]);
    }
}

static void say_refusal(const ruledesk_answer *answer) {
    printf("refused %" PRIu32, answer->number);
    if (answer->number == RULEDESK_NOT_ALLOWED) {
        printf(", rules %" PRIu64 " and %" PRIu64 ", header", answer->values[0], answer->values[1]);
        for (int i = 0; i < RULEDESK_HEADER_BYTES; i++) {
            printf(" %02" PRIx64, answer->values[2 + i]);
        }
    } else if (answer->count == 1) {
        printf(" at %" PRIu64, answer->values[0]);
    }
    printf("\n");
}

static void build(const char *name, const uint8_t *table, uint32_t *area, size_t words) {
    ruledesk_answer answer = ruledesk_build(table, TABLE_BYTES, area, words);
    printf("%s: ", name);
    if (answer.number == RULEDESK_DONE) {
        printf("%" PRIu64 " words\n", answer.values[0]);
    } else {
        say_refusal(&answer);
    }
}

static void say_action(uint64_t kind, uint64_t feed) {
    switch (kind) {
    case RULEDESK_HOLD:
        printf(" hold");
        break;
    case RULEDESK_DELIVER:
        printf(" deliver %" PRIu64, feed);
        break;
    }
}

/* From a.0.0.1 to b.0.0.1, with ports and protocol 0. */
static void look_up(const uint32_t *area, uint8_t a, uint8_t b, size_t header_length) {
    const uint8_t header[RULEDESK_HEADER_BYTES] = {a, 0, 0, 1, b, 0, 0, 1};
    ruledesk_answer answer = ruledesk_lookup(six_rules, TABLE_BYTES, area, WORDS, header, header_length);
    printf("%d.0.0.1 to %d.0.0.1, %zu bytes: ", a, b, header_length);
    if (answer.number != RULEDESK_DONE) {
        say_refusal(&answer);
        return;
    }
    if (answer.values[1] == 0) {
        printf("none");
    } else {
        printf("match %" PRIu64, answer.values[2]);
        say_action(answer.values[3], answer.values[4]);
    }
    printf(", false blocks %" PRIu64 "\n", answer.values[0]);
}

static void show(const char *name, const uint8_t *table, size_t place) {
    ruledesk_part part = ruledesk_show(table, TABLE_BYTES, place);
    printf("%s %zu:", name, place);
    say_bytes(table + part.start, part.length);
    printf("\n");
}

static void list_pairs(size_t entries) {
    uint16_t list[RULEDESK_ENOUGH_ENTRIES(RULES)];
    ruledesk_answer answer = ruledesk_pairs(six_rules, TABLE_BYTES, list, entries);
    printf("pairs, list of %zu: ", entries);
    if (answer.number != RULEDESK_DONE) {
        say_refusal(&answer);
        return;
    }
    printf("%" PRIu64, answer.values[0]);
    for (uint64_t i = 0; i < answer.values[0]; i++) {
        printf(", %d and %d", list[2 * i], list[2 * i + 1]);
    }
    printf("\n");
}

static void judge(const uint16_t *order, size_t rules, uint8_t *output) {
    ruledesk_answer answer = ruledesk_judge(six_rules, TABLE_BYTES, order, rules, output, TABLE_BYTES);
    printf("order");
    for (size_t i = 0; i < rules; i++) {
        printf(" %d", order[i]);
    }
    printf(": ");
    if (answer.number == RULEDESK_DONE) {
        printf("allowed\n");
    } else {
        say_refusal(&answer);
    }
}

int main(void) {
    static uint32_t area[WORDS];
    uint8_t output[TABLE_BYTES] = {0};
    uint8_t unknown[TABLE_BYTES];
    memcpy(unknown, six_rules, TABLE_BYTES);
    unknown[3 * RULEDESK_RECORD_BYTES + 18] = 2;

    build("six rules, a word short", six_rules, area, WORDS - 1);
    build("rule 3 of an unknown kind", unknown, area, WORDS);
    look_up(area, 0, 128, RULEDESK_HEADER_BYTES);
    build("six rules", six_rules, area, WORDS);
    look_up(area, 0, 128, RULEDESK_HEADER_BYTES);
    look_up(area, 224, 240, RULEDESK_HEADER_BYTES);
    look_up(area, 64, 192, RULEDESK_HEADER_BYTES);
    look_up(area, 0, 128, RULEDESK_HEADER_BYTES - 1);
    show("rule", six_rules, 3);
    show("rule", six_rules, RULES);
    list_pairs(1);
    list_pairs(2);
    judge((const uint16_t[]){1, 0, 2, 3, 4, 5}, RULES, output);
    judge((const uint16_t[]){0, 1, 2, 3, 4}, RULES - 1, output);
    judge((const uint16_t[]){0, 1, 2, 3, 5, 4}, RULES, output);
    show("moved rule", output, 4);
    return 0;
}
