/* The benchmark's calls as a gateway makes them: the typed functions of the C header on states that this side keeps. Tables are filled as
   the other sides fill theirs, every row of the inputs is a call, and the answers are added up. */
#include "warpteasel.h"

/* A row is eight numbers. */
enum { ROW = 8 };

/* A call that is refused would make the sums differ. */
enum { REFUSED = 7000000 };

static void fill(struct warpteasel_routing *routing, uint16_t size) {
    struct warpteasel_route_request request = {0, 1, 3000, 2000, 200, WARPTEASEL_NOT_MANY_TO_ONE};
    struct warpteasel_route_request_answer answer;
    warpteasel_routing_init(routing);
    for (uint16_t n = 1; n <= size; n++) (void)!warpteasel_restore_route(routing, n, 2000, 3);
    for (uint16_t n = 1; n < size / 2; n++) {
        request.originator = n;
        (void)!warpteasel_accept_route_request(routing, &request, 0, 1000000000000, &answer);
    }
}

static void fill_records(struct warpteasel_routing *routing, struct warpteasel_relay_store *store, uint16_t size) {
    static const uint16_t relays[] = {1, 2, 3};
    bool changed;
    fill(routing, size);
    warpteasel_relay_store_init(store);
    for (uint16_t n = 4; n <= size; n++) (void)!warpteasel_store_route_record(routing, store, n, relays, 3, &changed);
}

static const struct warpteasel_link_status *eight(void) {
    static struct warpteasel_link_status entries[8];
    for (unsigned n = 1; n <= 8; n++) {
        entries[n - 1].nwk = (uint16_t)n;
        entries[n - 1].incoming_cost = (uint8_t)(n % 8);
        entries[n - 1].outgoing_cost = (uint8_t)(n % 3);
    }
    return entries;
}

static uint64_t link_status(
    struct warpteasel_neighbors *neighbors, const struct warpteasel_link_status *entries, uint16_t own, uint64_t eui64, uint16_t nwk, uint8_t lqi,
    uint64_t now) {
    struct warpteasel_link_status_command command = {eui64, nwk, lqi, true, true, entries, 8};
    struct warpteasel_found_nwk lost;
    if (warpteasel_on_link_status(neighbors, own, &command, now, &lost) != WARPTEASEL_OK) return REFUSED;
    return lost.found ? lost.nwk : 1;
}

static void fill_neighbors(struct warpteasel_neighbors *neighbors, uint16_t size) {
    const struct warpteasel_link_status *entries = eight();
    warpteasel_neighbors_init(neighbors);
    for (uint16_t n = 1; n <= size; n++) link_status(neighbors, entries, 1, n, n, 200, 0);
}

uint64_t linked_request(uint16_t size, const uint64_t *rows, size_t count) {
    static struct warpteasel_routing routing;
    uint64_t sum = 0;
    fill(&routing, size);
    for (const uint64_t *row = rows; row < rows + count; row += ROW) {
        struct warpteasel_route_request request = {
            (uint16_t)row[0], (uint8_t)row[1], (uint16_t)row[2], (uint16_t)row[3], (uint8_t)row[4], WARPTEASEL_NOT_MANY_TO_ONE};
        struct warpteasel_route_request_answer answer;
        sum += warpteasel_accept_route_request(&routing, &request, row[6], 1000, &answer) == WARPTEASEL_OK ? answer.accepted : REFUSED;
    }
    return sum;
}

uint64_t linked_reply(uint16_t size, const uint64_t *rows, size_t count) {
    static struct warpteasel_routing routing;
    uint64_t sum = 0;
    fill(&routing, size);
    for (const uint64_t *row = rows; row < rows + count; row += ROW) {
        struct warpteasel_route_reply reply = {(uint16_t)row[1], (uint8_t)row[2], (uint16_t)row[3], (uint16_t)row[4], (uint8_t)row[5]};
        struct warpteasel_route_reply_answer answer;
        if (warpteasel_accept_route_reply(&routing, (uint16_t)row[0], &reply, &answer) != WARPTEASEL_OK) sum += REFUSED;
        else if (answer.disposition == WARPTEASEL_REPLY_RELAY) sum += (uint64_t)answer.next_hop + answer.path_cost;
        else sum += answer.disposition == WARPTEASEL_REPLY_DROP ? 1 : 2;
    }
    return sum;
}

uint64_t linked_begin(uint16_t size, const uint64_t *rows, size_t count) {
    static struct warpteasel_routing routing;
    uint64_t sum = 0;
    fill(&routing, size);
    for (const uint64_t *row = rows; row < rows + count; row += ROW) {
        uint8_t id;
        sum += warpteasel_begin_discovery(&routing, (uint16_t)row[0], (uint16_t)row[1], row[2], row[3], &id) == WARPTEASEL_OK ? id : REFUSED;
    }
    return sum;
}

uint64_t linked_next_hop(uint16_t size, const uint64_t *rows, size_t count) {
    static struct warpteasel_routing routing;
    uint64_t sum = 0;
    fill(&routing, size);
    for (const uint64_t *row = rows; row < rows + count; row += ROW) {
        struct warpteasel_found_nwk hop;
        if (warpteasel_next_hop(&routing, (uint16_t)row[0], &hop) != WARPTEASEL_OK) sum += REFUSED;
        else sum += hop.found ? hop.nwk : 1;
    }
    return sum;
}

uint64_t linked_record(uint16_t size, const uint64_t *rows, size_t count) {
    static struct warpteasel_routing routing;
    static struct warpteasel_relay_store store;
    uint64_t sum = 0;
    fill_records(&routing, &store, size);
    for (const uint64_t *row = rows; row < rows + count; row += ROW) {
        uint16_t relays[3] = {(uint16_t)row[2], (uint16_t)row[3], (uint16_t)row[4]};
        bool changed;
        sum += warpteasel_store_route_record(&routing, &store, (uint16_t)row[0], relays, row[1] % 4, &changed) == WARPTEASEL_OK ? changed : REFUSED;
    }
    return sum;
}

uint64_t linked_route_query(uint16_t size, const uint64_t *rows, size_t count) {
    static struct warpteasel_routing routing;
    static struct warpteasel_relay_store store;
    uint64_t sum = 0;
    fill_records(&routing, &store, size);
    for (const uint64_t *row = rows; row < rows + count; row += ROW) {
        struct warpteasel_way way;
        if (warpteasel_route_to(&routing, &store, (uint16_t)row[0], (uint8_t)row[1], &way) != WARPTEASEL_OK) sum += REFUSED;
        else if (way.kind == WARPTEASEL_WAY_SOURCE_ROUTE) sum += way.count + way.relays[0];
        else sum += way.kind == WARPTEASEL_WAY_NONE ? 1 : way.next_hop;
    }
    return sum;
}

uint64_t linked_link_status(uint16_t size, const uint64_t *rows, size_t count) {
    static struct warpteasel_neighbors neighbors;
    const struct warpteasel_link_status *entries = eight();
    uint64_t sum = 0;
    fill_neighbors(&neighbors, size);
    for (const uint64_t *row = rows; row < rows + count; row += ROW)
        sum += link_status(&neighbors, entries, (uint16_t)row[0], row[1], (uint16_t)row[2], (uint8_t)row[3], row[4]);
    return sum;
}

uint64_t linked_decision(uint16_t size, const uint64_t *rows, size_t count) {
    static struct warpteasel_routing routing;
    static struct warpteasel_relay_store store;
    static struct warpteasel_neighbors neighbors;
    static const struct warpteasel_policy policy = {true, false, 12};
    static const struct warpteasel_send send = {WARPTEASEL_SEND_STACK_DECIDES, 0, NULL, 0};
    uint64_t sum = 0;
    fill_records(&routing, &store, size);
    fill_neighbors(&neighbors, size);
    for (uint16_t n = 1; n < size; n = (uint16_t)(n + 2)) {
        struct warpteasel_child child = {n, n, WARPTEASEL_END_DEVICE, true, 1000, WARPTEASEL_CHILD};
        (void)!warpteasel_upsert_child(&neighbors, &child, 0);
    }
    for (const uint64_t *row = rows; row < rows + count; row += ROW) {
        struct warpteasel_header header;
        struct warpteasel_decision decision;
        memset(&header, 0, sizeof header);
        header.frame_control.protocol_version = 2;
        header.frame_control.discover_route = WARPTEASEL_DISCOVERY_ENABLED;
        header.frame_control.security = true;
        header.destination = (uint16_t)row[0];
        header.source = (uint16_t)row[1];
        header.radius = 30;
        if (warpteasel_resolve(&routing, &store, &neighbors, &policy, &send, &header, &decision) != WARPTEASEL_OK) sum += REFUSED;
        else {
            sum += decision.kind == WARPTEASEL_DECISION_HOP ? decision.next_hop : (uint64_t)decision.kind;
            sum += header.has_source_route ? header.source_route.count : 0;
        }
    }
    return sum;
}
