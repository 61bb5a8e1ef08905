/*
 * The rule desk for C and C++: verified packet classification.
 *
 * Five calls over the caller's own memory. The desk allocates nothing, keeps nothing between calls and may be used from
 * several threads at once, as long as nobody writes what another call reads.
 *
 * A rule table is records of RULEDESK_RECORD_BYTES, no header, at most RULEDESK_MOST_RULES of them, possibly none.
 * Places count from 0, and the lowest place that matches wins. Numbers are big-endian:
 *
 *     bytes 0-3, 4-7        source address, destination address
 *     bytes 8-9, 10-11, 12  source port, destination port, protocol
 *     bytes 13 to 17        prefix lengths of these five, in that order: up to 32, 32, 16, 16 and 8
 *     bytes 18, 19          action kind, feed: kind 0 holds, with feed 0; kind 1 delivers to the feed
 *     bytes 20-23           zero
 *
 * Bits after a prefix are zero. A rule with a port length above 0 is for protocol 6 exactly or for protocol 17 exactly: headers of
 * protocols without ports carry zeros there. A packet header is RULEDESK_HEADER_BYTES: the five values, in the same order and widths.
 *
 * What a caller owes: each pointer is valid for its length, which counts elements and not bytes, and is aligned for its type. It is
 * not NULL, even where the length is 0: any array of one's own will do then. What a call writes overlaps nothing else
 * that it is given. Nothing more: no call has any other precondition, whatever the bytes, the words, the order or the place are.
 *
 * Every number but 0 leaves all lent memory unchanged. A table's refusals are 1, then 2, then the fault of the lowest place that has
 * one: of its rule's 3, 4, 5, 6 and 14 the first, in that order.
 */
#ifndef RULEDESK_H
#define RULEDESK_H

#include <stddef.h>
#include <stdint.h>

#ifdef __cplusplus
extern "C" {
#endif

#define RULEDESK_RECORD_BYTES 24
#define RULEDESK_HEADER_BYTES 13
#define RULEDESK_MOST_RULES 256

/* Words of an area and entries of a list that suffice for any table of so many rules. */
#define RULEDESK_ENOUGH_WORDS(rules) (11 * (5 + 104 * (size_t)(rules)))
#define RULEDESK_ENOUGH_ENTRIES(rules) ((size_t)(rules) * ((size_t)(rules) - 1))

/* The numbers of an answer, with the values that each carries in its order. */
enum {
    RULEDESK_DONE = 0,            /* what the call says below */
    RULEDESK_RAGGED_TABLE = 1,    /* the table's length is no multiple of 24: nothing */
    RULEDESK_TOO_MANY_RULES = 2,  /* more than 256 rules: nothing */
    RULEDESK_LONG_PREFIX = 3,     /* a prefix length is above its field's limit: place */
    RULEDESK_STRAY_BIT = 4,       /* a bit after the prefix is set: place */
    RULEDESK_UNKNOWN_ACTION = 5,  /* unknown kind, or hold with a feed other than 0: place */
    RULEDESK_SPARE_BYTES = 6,     /* bytes 20-23 are not all zero: place */
    RULEDESK_SHORT_AREA = 7,      /* the area is shorter than the words needed: nothing */
    RULEDESK_NOT_A_HEADER = 8,    /* the header is not 13 bytes: nothing */
    RULEDESK_DAMAGED_AREA = 9,    /* the area has under 55 words, or holds on the way what no index holds: nothing */
    RULEDESK_SHORT_LIST = 10,     /* the list is shorter than twice the number of pairs: nothing */
    RULEDESK_NOT_AN_ORDER = 11,   /* the order's length is not the rule count, or an entry is repeated or too large: nothing */
    RULEDESK_SHORT_OUTPUT = 12,   /* the output is shorter than the table: nothing */
    RULEDESK_NOT_ALLOWED = 13,    /* the move is not allowed: lower place, higher place, the 13 bytes of a header */
    RULEDESK_STRAY_PORT = 14      /* a port length above 0, and a protocol that is not exactly 6 or exactly 17: place */
};

/* The kinds of an action. */
enum {
    RULEDESK_HOLD = 0,    /* the packet is held; the feed is 0 */
    RULEDESK_DELIVER = 1  /* the packet is delivered to the feed */
};

/* An answer: its number, how many values it carries, and these values. The values after them are zero. */
typedef struct {
    uint32_t number;
    uint32_t count;
    uint64_t values[15];
} ruledesk_answer;

/* A part of the caller's table: `length` bytes from `table + start`. */
typedef struct {
    size_t start;
    size_t length;
} ruledesk_part;

/*
 * Writes the index of the table to the area; its further words keep their values.
 * Done carries the number of words that the index takes. Refusals: the table's, then 7.
 */
ruledesk_answer ruledesk_build(const uint8_t *table, size_t table_length, uint32_t *area, size_t area_length);

/*
 * The first rule that matches a header, by the index in the area.
 * Done carries the number of false blocks; then 1, the place, the action's kind and its feed where a rule matches, and 0 where none does.
 * Refusals: 8, 1, 2, 9, then 5 for the winner alone. Over the index that `ruledesk_build` wrote of this table, both unchanged, 9 and 5
 * never come; over any other area the answer is what the same steps say of it. The area may be longer than the index.
 */
ruledesk_answer ruledesk_lookup(const uint8_t *table, size_t table_length, const uint32_t *area, size_t area_length,
                                const uint8_t *header, size_t header_length);

/*
 * Lists the pairs of rules that share a header while neither covers the other: two places for each, the lower first, sorted by the
 * lower and then the higher; later entries keep their values.
 * Done carries the number of pairs. Refusals: the table's, then 10.
 */
ruledesk_answer ruledesk_pairs(const uint8_t *table, size_t table_length, uint16_t *list, size_t list_length);

/*
 * Whether the rules may be put in another order, given as their old places in the new order; if they may, writes the
 * moved table to the output, whose further bytes stay.
 * Done carries nothing. Refusals: the table's, then 11, 12, 13. 13 names the first pair, by old places,
 * that would change order although it shares a header and differs in action, and the lowest header that it shares.
 */
ruledesk_answer ruledesk_judge(const uint8_t *table, size_t table_length, const uint16_t *order, size_t order_length,
                               uint8_t *output, size_t output_length);

/* The 24 bytes of the rule at a place, or an empty part that starts at 0 where no whole record stands there. */
ruledesk_part ruledesk_show(const uint8_t *table, size_t table_length, size_t place);

#ifdef __cplusplus
}
#endif

#endif
