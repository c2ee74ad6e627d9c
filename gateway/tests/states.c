/* Damaged states: whatever a state holds, a call is refused or answered. It never crashes, writes nothing outside what it may change, and where it is
   refused it writes nothing at all. States of four kinds are made, STATES of each; every call of warpteasel.h is made on every one of them. */
#include "calls.h"

#define STATES 10000
#define GROWN 64

static struct bench grown[GROWN]; /* well formed */
static struct bench damaged;      /* the bench before a call */
static struct bench now;          /* and after it */
static size_t refused, answered;

static void fail(const char *call, const char *kind, size_t number, const char *what) {
    printf("states: %s on state %zu of kind '%s': %s\n", call, number, kind, what);
    exit(1);
}

/* ---- Damage: each kind says which parts are ill formed for sure ---- */

/* Random bytes: whole states, or one of them, with counts of any size or within their tables. */
static unsigned random_bytes(struct bench *b) {
    size_t which = below(4);
    if (which == 0 || which == 1) draw_bytes(&b->routing, sizeof b->routing);
    if (which == 0 || which == 2) draw_bytes(&b->store, sizeof b->store);
    if (which == 0 || which == 3) draw_bytes(&b->neighbors, sizeof b->neighbors);
    if (once_in(2)) {
        b->routing.routes = below(WARPTEASEL_MAX_ROUTES + 1);
        b->routing.discoveries = below(WARPTEASEL_MAX_DISCOVERIES + 1);
        b->routing.records = below(WARPTEASEL_MAX_RECORDS + 1);
        b->neighbors.count = below(WARPTEASEL_MAX_NEIGHBORS + 1);
        b->neighbors.waiting = below(WARPTEASEL_MAX_WAITING + 1);
    }
    return 0;
}

/* One bit of a good state is another. */
static unsigned flipped_bit(struct bench *b) {
    uint8_t *parts[] = {(uint8_t *)&b->routing, (uint8_t *)&b->store, (uint8_t *)&b->neighbors};
    size_t lengths[] = {sizeof b->routing, sizeof b->store, sizeof b->neighbors};
    size_t part = below(3), place = below(lengths[part]);
    parts[part][place] ^= (uint8_t)(1u << below(8));
    return 0;
}

/* A count of a good state is past its table, or another one within it. */
static unsigned wrong_count(struct bench *b) {
    static const size_t large[] = {SIZE_MAX, SIZE_MAX / 2 + 1, (size_t)UINT32_MAX + 1, (size_t)UINT32_MAX + 3, 65536, 256};
    size_t *counts[] = {&b->routing.routes, &b->routing.discoveries, &b->routing.records, &b->neighbors.count, &b->neighbors.waiting};
    static const size_t capacities[] = {
        WARPTEASEL_MAX_ROUTES, WARPTEASEL_MAX_DISCOVERIES, WARPTEASEL_MAX_RECORDS, WARPTEASEL_MAX_NEIGHBORS, WARPTEASEL_MAX_WAITING};
    size_t which = below(5);
    if (once_in(3)) {
        *counts[which] = below(capacities[which] + 1);
        return 0;
    }
    *counts[which] = once_in(2) ? large[below(6)] : capacities[which] + 1 + below(8);
    return which < 3 ? ROUTING : NEIGHBORS;
}

/* Two keys that are equal or in the wrong order, or one past the count; a number in a row of the store that no record has; a key of any kind. */
#define KEYS(keys, count, capacity, type, part) \
    do { \
        size_t place = below(capacity); \
        if (place + 1 < (count)) { \
            type low = (keys)[place], high = (keys)[place + 1]; \
            (keys)[place] = high; \
            if (once_in(2)) (keys)[place + 1] = low; \
            return part; \
        } \
        if (place >= (count)) { \
            (keys)[place] = (type)(draw() | 1); \
            return part; \
        } \
        (keys)[place] = (type)draw(); \
        return 0; \
    } while (0)

static unsigned wrong_key(struct bench *b) {
    switch (below(6)) {
    case 0: KEYS(b->routing.route_keys, b->routing.routes, WARPTEASEL_MAX_ROUTES, uint16_t, ROUTING);
    case 1: KEYS(b->routing.discovery_keys, b->routing.discoveries, WARPTEASEL_MAX_DISCOVERIES, uint32_t, ROUTING);
    case 2: KEYS(b->routing.record_keys, b->routing.records, WARPTEASEL_MAX_RECORDS, uint16_t, ROUTING);
    case 3: KEYS(b->neighbors.keys, b->neighbors.count, WARPTEASEL_MAX_NEIGHBORS, uint64_t, NEIGHBORS);
    case 4: KEYS(b->neighbors.senders, b->neighbors.waiting, WARPTEASEL_MAX_WAITING, uint16_t, NEIGHBORS);
    default: {
        size_t place = below(WARPTEASEL_STORE_LENGTH);
        size_t row = place / WARPTEASEL_MAX_RELAYS;
        size_t used = row < b->routing.records ? b->routing.record_lengths[row] : 0;
        b->store.relays[place] = (uint16_t)(draw() | 1);
        return place % WARPTEASEL_MAX_RELAYS < used ? 0 : STORE;
    }
    }
}

/* ---- The test ---- */

#define SAME(part) (memcmp(&now.part, &damaged.part, sizeof now.part) == 0)

/* One call on the damaged bench, and what it left. */
static void try_call(const struct call *call, const char *kind, size_t number, unsigned ill) {
    enum warpteasel_status status;
    memcpy(&now, &damaged, sizeof now);
    status = call->make(&now);
    if (status != WARPTEASEL_OK) {
        refused++;
        if (status > WARPTEASEL_LINK_COST_TOO_HIGH && status != WARPTEASEL_NO_CALL) fail(call->name, kind, number, "no status");
        if (memcmp(&now, &damaged, sizeof now) != 0) fail(call->name, kind, number, "it was refused and wrote something");
        if (call->lent & ill & (ROUTING | NEIGHBORS) && status != WARPTEASEL_STATE_ILL_FORMED && status != WARPTEASEL_NO_CALL)
            fail(call->name, kind, number, "the state is ill formed and another refusal is given");
        return;
    }
    answered++;
    if (call->lent & ill) fail(call->name, kind, number, "it was answered on an ill-formed state");
    if (!SAME(guard0) || !SAME(guard1) || !SAME(guard2) || !SAME(guard3) || !SAME(guard4) || !SAME(guard5))
        fail(call->name, kind, number, "it wrote past what it was lent");
    if (!(call->changes & ROUTING) && !SAME(routing)) fail(call->name, kind, number, "the routing state changed");
    if (!(call->changes & STORE) && !SAME(store)) fail(call->name, kind, number, "the relay store changed");
    if (!(call->changes & NEIGHBORS) && !SAME(neighbors)) fail(call->name, kind, number, "the neighbors changed");
    if (!(call->changes & HEADER) && !SAME(header)) fail(call->name, kind, number, "the header changed");
    /* What a call leaves is well formed, and a store that was read before still agrees. */
    if (call->changes & (ROUTING | STORE)) {
        status = call->lent & STORE ? call_record_at(&now) : call_record_count(&now);
        if (status != WARPTEASEL_OK) fail(call->name, kind, number, "it left a routing state or a store that is refused");
    }
    if (call->changes & NEIGHBORS && call_neighbor_count(&now) != WARPTEASEL_OK) fail(call->name, kind, number, "it left neighbors that are refused");
}

/* A kind of damage, on every call. */
static void try_kind(const char *kind, unsigned (*damage)(struct bench *)) {
    for (size_t number = 0; number < STATES; number++) {
        unsigned ill;
        memcpy(&damaged, &grown[below(GROWN)], sizeof damaged);
        draw_header(&damaged.header);
        draw_bytes(&damaged.answer, sizeof damaged.answer);
        ill = damage(&damaged);
        for (size_t i = 0; i < CALLS; i++) {
            draw_arguments();
            try_call(&calls[i], kind, number, ill);
        }
    }
}

/* Good states with a call's status looked at: lists that are too long, and arguments that are no value of their type. */
#define EXPECT(call, wanted) \
    do { \
        memcpy(&now, &damaged, sizeof now); \
        if ((call) != (wanted)) fail(#call, "good", 0, "another status is wanted, " #wanted); \
        if ((wanted) != WARPTEASEL_OK && memcmp(&now, &damaged, sizeof now) != 0) fail(#call, "good", 0, "it was refused and wrote something"); \
    } while (0)

#define DECIDE warpteasel_resolve_default(&now.routing, &now.store, &now.neighbors, &send, &now.header, &now.answer.decision)
#define STATUS_OF(command) warpteasel_on_link_status(&now.neighbors, 0, &(command), 0, &now.answer.nwk)
#define RECORD(relays, count) warpteasel_store_route_record(&now.routing, &now.store, 1, relays, count, &now.answer.flag)
#define CLAIM(list, count) warpteasel_remove_claimed_children(&now.neighbors, list, count, &now.answer.children)
#define ANNOUNCE(list, count) warpteasel_process_parent_annce(&now.neighbors, list, count, &now.answer.annce)

static void try_arguments(void) {
    struct warpteasel_link_status_command command = {1, 1, 200, true, true, NULL, 0};
    struct warpteasel_send send = {WARPTEASEL_SEND_FORCE_SOURCE_ROUTE, 0, NULL, 0};
    struct warpteasel_child child = {1, 1, (enum warpteasel_device_type)3, false, 0, WARPTEASEL_CHILD};
    struct warpteasel_route_request request = {1, 1, 2, 3, 4, (enum warpteasel_many_to_one)256};
    draw_bytes(&damaged, sizeof damaged);
    warpteasel_routing_init(&damaged.routing);
    warpteasel_relay_store_init(&damaged.store);
    warpteasel_neighbors_init(&damaged.neighbors);
    memset(&damaged.header, 0, sizeof damaged.header);
    memset(relay_pool, 0, sizeof relay_pool);
    memset(eui64_pool, 0, sizeof eui64_pool);
    memset(entry_pool, 0, sizeof entry_pool);

    EXPECT(RECORD(NULL, 0), WARPTEASEL_OK);
    EXPECT(RECORD(NULL, 1), WARPTEASEL_NO_CALL);
    EXPECT(RECORD(relay_pool, 32), WARPTEASEL_OK);
    EXPECT(RECORD(relay_pool, 33), WARPTEASEL_LIST_TOO_LONG);
    EXPECT(RECORD(relay_pool, SIZE_MAX), WARPTEASEL_LIST_TOO_LONG);
    EXPECT(CLAIM(NULL, 0), WARPTEASEL_OK);
    EXPECT(CLAIM(NULL, 1), WARPTEASEL_NO_CALL);
    EXPECT(CLAIM(eui64_pool, 64), WARPTEASEL_OK);
    EXPECT(CLAIM(eui64_pool, 65), WARPTEASEL_LIST_TOO_LONG);
    EXPECT(ANNOUNCE(NULL, 0), WARPTEASEL_OK);
    EXPECT(ANNOUNCE(NULL, 1), WARPTEASEL_NO_CALL);
    EXPECT(ANNOUNCE(eui64_pool, 64), WARPTEASEL_OK);
    EXPECT(ANNOUNCE(eui64_pool, 65), WARPTEASEL_LIST_TOO_LONG);
    EXPECT(STATUS_OF(command), WARPTEASEL_OK);
    command.count = 1;
    EXPECT(STATUS_OF(command), WARPTEASEL_NO_CALL);
    command.entries = entry_pool;
    command.count = 31;
    EXPECT(STATUS_OF(command), WARPTEASEL_OK);
    command.count = 32;
    EXPECT(STATUS_OF(command), WARPTEASEL_LIST_TOO_LONG);
    command.count = 1;
    entry_pool[0].outgoing_cost = 8;
    EXPECT(STATUS_OF(command), WARPTEASEL_LINK_COST_TOO_HIGH);
    EXPECT(DECIDE, WARPTEASEL_EMPTY_SOURCE_ROUTE);
    send.count = 1;
    EXPECT(DECIDE, WARPTEASEL_NO_CALL);
    send.relays = relay_pool;
    send.count = 32;
    EXPECT(DECIDE, WARPTEASEL_OK);
    send.count = 33;
    EXPECT(DECIDE, WARPTEASEL_LIST_TOO_LONG);
    send.mode = (enum warpteasel_send_mode)6;
    EXPECT(DECIDE, WARPTEASEL_NO_CALL);
    EXPECT(warpteasel_upsert_child(&now.neighbors, &child, 0), WARPTEASEL_NO_CALL);
    EXPECT(warpteasel_accept_route_request(&now.routing, &request, 0, 0, &now.answer.request), WARPTEASEL_NO_CALL);
    /* A damaged state comes first. */
    damaged.routing.routes = damaged.neighbors.count = 65;
    command.count = 32;
    EXPECT(RECORD(relay_pool, 33), WARPTEASEL_STATE_ILL_FORMED);
    EXPECT(ANNOUNCE(eui64_pool, 65), WARPTEASEL_STATE_ILL_FORMED);
    EXPECT(STATUS_OF(command), WARPTEASEL_STATE_ILL_FORMED);
}

/* A column of a wrong length is refused by the library itself; what lies past it is not looked at. */
#define ROUTING_COLUMNS(r, n) \
    (r).route_keys, n[0], (r).route_words, n[1], (r).route_usage, n[2], (r).routes, (r).discovery_keys, n[3], (r).discovery_words, n[4], \
        (r).discovery_ends, n[5], (r).discoveries, (r).record_keys, n[6], (r).record_lengths, n[7], (r).records
#define NEIGHBOR_COLUMNS(s, n) \
    (s).keys, n[0], (s).nwks, n[1], (s).links, n[2], (s).counts, n[3], (s).deadlines, n[4], (s).periods, n[5], (s).heard, n[6], (s).added, n[7], \
        (s).beacons, n[8], (s).bytes, n[9], (s).count, (s).senders, n[10], (s).samples, n[11], (s).waiting

static void try_lengths(void) {
    static const size_t wrong[] = {0, 1, 31, 33, 63, 65, 2047, 2049};
    uint16_t relays[WARPTEASEL_MAX_RELAYS], hop = 7;
    uint8_t way = 7;
    size_t count = 7;
    memcpy(&damaged, &grown[0], sizeof damaged);
    for (size_t i = 0; i < sizeof wrong / sizeof wrong[0]; i++) {
        for (size_t column = 0; column < 9; column++) {
            size_t n[] = {64, 64, 64, 32, 32, 32, 64, 64, 2048};
            n[column] = wrong[i];
            if (warpteasel_raw_route_to(
                    ROUTING_COLUMNS(damaged.routing, n), damaged.store.relays, n[8], 1, 12, &way, &hop, &count, relays, WARPTEASEL_MAX_RELAYS) !=
                    (column < 8 ? WARPTEASEL_STATE_ILL_FORMED : WARPTEASEL_STORE_DISAGREES) ||
                way != 7 || hop != 7 || count != 7)
                fail("route_to", "wrong length", column, "it is not refused");
        }
        for (size_t column = 0; column < 12; column++) {
            size_t n[] = {64, 64, 64, 64, 64, 64, 64, 64, 64, 64, 64, 64};
            n[column] = wrong[i];
            if (warpteasel_raw_neighbor_count(NEIGHBOR_COLUMNS(damaged.neighbors, n), &count) != WARPTEASEL_STATE_ILL_FORMED || count != 7)
                fail("neighbor_count", "wrong length", column, "it is not refused");
        }
    }
}

int main(void) {
    for (size_t i = 0; i < GROWN; i++) grow(&grown[i]);
    try_kind("random bytes", random_bytes);
    try_kind("one bit flipped", flipped_bit);
    try_kind("wrong count", wrong_count);
    try_kind("wrong key", wrong_key);
    try_arguments();
    try_lengths();
    printf("states: 4 kinds of %d damaged states, %zu calls on each: %zu refused, %zu answered\n", STATES, CALLS, refused, answered);
    return 0;
}
