/* A session by hand, to compare the proved one with. It is altered where it lies. */
#ifndef SESSION_H
#define SESSION_H

#include <stdbool.h>
#include <stddef.h>
#include <stdint.h>

enum { SUBSCRIPTIONS = 16, TRANSACTIONS = 4, DELIVERIES = 64, ID_OCTETS = 32 };
enum phase { FRESH, OPEN, CLOSED };
enum mode { AUTO, CLIENT, INDIVIDUAL, MODES };

/* Places of ids and labels: the first octets of a place, as many as its length, are its id; 0 is a free
 * place. The first deliveries, as many as are pending, have a label and the place of their subscription,
 * oldest first; all octets not in use are 0. */
struct session {
    uint8_t phase;
    uint32_t sends;
    uint32_t wants;
    bool offered[3];
    bool shared[3];
    uint32_t inbound;
    uint32_t outbound;
    uint32_t last_heard;
    uint8_t subscriptions[SUBSCRIPTIONS * ID_OCTETS];
    uint8_t subscription_lengths[SUBSCRIPTIONS];
    uint8_t transactions[TRANSACTIONS * ID_OCTETS];
    uint8_t transaction_lengths[TRANSACTIONS];
    uint8_t labels[DELIVERIES * ID_OCTETS];
    uint8_t label_lengths[DELIVERIES];
    uint8_t owners[DELIVERIES];
    uint8_t modes[SUBSCRIPTIONS];
    uint8_t pending;
};

/* A row of octets; none where the pointer is null. */
struct octets {
    const uint8_t *at;
    size_t length;
};

/* A pending delivery. */
struct delivery {
    unsigned mode;
    struct octets subscription;
    struct octets label;
};

/* How many later entries follow the first of these headers. */
struct later {
    size_t destinations;
    size_t ids;
    size_t transactions;
};

/* The answers, besides the numbers of the refusals: accepted or recorded, or yes or no. */
enum { ACCEPTED = 0, ACCEPTED_RECEIPT = 1, NO = 0, YES = 1 };

unsigned session_make(struct session *s, uint32_t sends, uint32_t wants, const bool offered[3]);
/* Where the frame is accepted, `later` is set. */
unsigned session_frame(struct session *s, uint32_t command, const uint8_t *block, size_t length,
                       uint32_t time, struct later *later);
unsigned session_heart_beat(struct session *s, uint32_t time);
unsigned session_timed_out(const struct session *s, uint32_t time);
unsigned session_deliver(struct session *s, struct octets subscription, struct octets label);
/* Whether a delivery of that index, from the oldest on, is pending; it is found then. */
unsigned session_pending(const struct session *s, uint32_t index, struct delivery *found);

#endif
