/* Every call of warpteasel.h, made with drawn arguments on a bench: the states, a header and the places for answers, between guards. */
#ifndef WARPTEASEL_TESTS_CALLS_H
#define WARPTEASEL_TESTS_CALLS_H

#include <stdio.h>
#include <stdlib.h>
#include "../warpteasel.h"

#define GUARD 64

union answers {
    bool flag;
    uint8_t byte;
    size_t count;
    struct warpteasel_found_nwk nwk;
    struct warpteasel_found_eui64 eui64;
    struct warpteasel_found_time time;
    struct warpteasel_found_route_status status;
    struct warpteasel_route route;
    struct warpteasel_discovery discovery;
    struct warpteasel_record record;
    struct warpteasel_checked checked;
    struct warpteasel_way way;
    struct warpteasel_route_request_answer request;
    struct warpteasel_route_reply_answer reply;
    struct warpteasel_neighbor neighbor;
    struct warpteasel_neighbor_link link;
    struct warpteasel_capability capability;
    struct warpteasel_eui64_list eui64s;
    struct warpteasel_nwk_list nwks;
    struct warpteasel_child_list children;
    struct warpteasel_parent_annce_answer annce;
    struct warpteasel_link_status_list entries;
    struct warpteasel_decision decision;
};

struct bench {
    uint8_t guard0[GUARD];
    struct warpteasel_routing routing;
    uint8_t guard1[GUARD];
    struct warpteasel_relay_store store;
    uint8_t guard2[GUARD];
    struct warpteasel_neighbors neighbors;
    uint8_t guard3[GUARD];
    struct warpteasel_header header;
    uint8_t guard4[GUARD];
    union answers answer;
    uint8_t guard5[GUARD];
};

/* ---- Numbers drawn by xorshift ---- */

static uint64_t drawn = 88172645463325252u;

static uint64_t draw(void) {
    drawn ^= drawn << 13;
    drawn ^= drawn >> 7;
    drawn ^= drawn << 17;
    return drawn;
}

/* A number below a bound. */
static size_t below(size_t bound) { return (size_t)((draw() >> 11) % bound); }

/* True once in so many times. */
static bool once_in(size_t times) { return below(times) == 0; }

/* Addresses are mostly of a few, so that they meet again. */
static uint16_t draw_nwk(void) {
    static const uint16_t special[] = {0x0000, 0xFFFC, 0xFFFF};
    if (once_in(30)) return special[below(3)];
    return once_in(30) ? (uint16_t)(draw() & 0xFFFF) : (uint16_t)(1 + below(90));
}
static uint64_t draw_eui64(void) { return once_in(30) ? draw() : (1 + below(90)) * UINT64_C(0x0204081020408102); }

/* A time or a span: mostly a small one, sometimes one near the end of the clock. */
static uint64_t draw_time(void) { return once_in(20) ? UINT64_MAX - below(20000) : below(40000); }

static void draw_bytes(void *place, size_t length) {
    uint8_t *bytes = (uint8_t *)place;
    for (size_t i = 0; i < length; i++) bytes[i] = (uint8_t)(draw() & 0xFF);
}

/* ---- Arguments ---- */

#define POOL 80

static struct {
    uint16_t nwk, other, third, fourth;
    uint64_t eui64, now, span;
    uint8_t byte, cost;
    size_t place;
    bool flag, second_flag, third_flag;
    enum warpteasel_many_to_one many_to_one;
    enum warpteasel_device_type device_type;
    enum warpteasel_relationship relationship;
    struct warpteasel_send send;
    /* Lists end where their pool ends, so that whoever reads past a list reads past a pool. */
    const uint16_t *relays;
    size_t relay_count;
    const uint64_t *eui64s;
    size_t eui64_count;
    const struct warpteasel_link_status *entries;
    size_t entry_count;
} given;

static uint16_t relay_pool[POOL];
static uint64_t eui64_pool[POOL];
static struct warpteasel_link_status entry_pool[POOL];

/* The length of a list: mostly within its capacity, sometimes just at it or past it. */
static size_t draw_length(size_t capacity) {
    if (once_in(3)) return below(4);
    return once_in(8) ? capacity + below(POOL - capacity + 1) : below(capacity + 1);
}

static void draw_arguments(void) {
    given.nwk = draw_nwk();
    given.other = draw_nwk();
    given.third = draw_nwk();
    given.fourth = draw_nwk();
    given.eui64 = draw_eui64();
    given.now = draw_time();
    given.span = draw_time();
    given.byte = (uint8_t)(draw() & 0xFF);
    given.cost = once_in(4) ? given.byte : (uint8_t)below(12);
    given.place = once_in(20) ? (size_t)draw() : below(70);
    given.flag = once_in(2);
    given.second_flag = once_in(2);
    given.third_flag = once_in(2);
    given.many_to_one = (enum warpteasel_many_to_one)(once_in(40) ? below(600) : below(4));
    given.device_type = (enum warpteasel_device_type)(once_in(40) ? below(600) : below(3));
    given.relationship = (enum warpteasel_relationship)(once_in(40) ? below(600) : once_in(3) ? below(10) : 1);
    given.relay_count = draw_length(WARPTEASEL_MAX_RELAYS);
    given.eui64_count = draw_length(WARPTEASEL_MAX_ANNOUNCED);
    given.entry_count = draw_length(WARPTEASEL_MAX_LINK_STATUSES);
    given.relays = given.relay_count == 0 && given.flag ? NULL : relay_pool + (POOL - given.relay_count);
    given.eui64s = given.eui64_count == 0 && given.flag ? NULL : eui64_pool + (POOL - given.eui64_count);
    given.entries = given.entry_count == 0 && given.flag ? NULL : entry_pool + (POOL - given.entry_count);
    for (size_t i = POOL - given.relay_count; i < POOL; i++) relay_pool[i] = draw_nwk();
    for (size_t i = POOL - given.eui64_count; i < POOL; i++) eui64_pool[i] = draw_eui64();
    for (size_t i = POOL - given.entry_count; i < POOL; i++) {
        entry_pool[i].nwk = draw_nwk();
        entry_pool[i].incoming_cost = (uint8_t)below(once_in(200) ? 256 : 8);
        entry_pool[i].outgoing_cost = (uint8_t)below(once_in(200) ? 256 : 8);
    }
    given.send.mode = (enum warpteasel_send_mode)(once_in(40) ? below(600) : below(6));
    given.send.hop = given.other;
    given.send.relays = given.relays;
    given.send.count = given.relay_count;
}

/* A header: its flags are true or false, its other fields any. */
static void draw_header(struct warpteasel_header *header) {
    memset(header, 0, sizeof *header);
    header->frame_control.discover_route = (enum warpteasel_discover_route)(once_in(40) ? below(600) : below(3));
    header->frame_control.source_route = once_in(2);
    header->frame_control.end_device_initiator = once_in(2);
    header->destination = draw_nwk();
    header->source = draw_nwk();
    header->radius = (uint8_t)below(256);
    header->has_source_route = once_in(2);
    header->source_route.relay_index = (uint8_t)below(256);
    header->source_route.count = once_in(10) ? (size_t)draw() : below(34);
    for (size_t i = 0; i < WARPTEASEL_MAX_RELAYS; i++) header->source_route.relays[i] = draw_nwk();
}

/* ---- The calls ---- */

#define CALL(name, ...) \
    static enum warpteasel_status call_##name(struct bench *b) { return warpteasel_##name(__VA_ARGS__); }

CALL(next_hop, &b->routing, given.nwk, &b->answer.nwk)
CALL(route_status, &b->routing, given.nwk, &b->answer.status)
CALL(route_to, &b->routing, &b->store, given.nwk, given.cost, &b->answer.way)
CALL(route_to_default, &b->routing, &b->store, given.nwk, &b->answer.way)
CALL(discovery_deadline, &b->routing, given.nwk, given.now, &b->answer.time)
CALL(check, &b->routing, &b->answer.checked)
CALL(route_count, &b->routing, &b->answer.count)
CALL(route_at, &b->routing, given.place, &b->answer.route)
CALL(discovery_count, &b->routing, &b->answer.count)
CALL(discovery_at, &b->routing, given.place, &b->answer.discovery)
CALL(record_count, &b->routing, &b->answer.count)
CALL(record_at, &b->routing, &b->store, given.place, &b->answer.record)
CALL(begin_discovery, &b->routing, given.nwk, given.other, given.now, given.span, &b->answer.byte)
CALL(begin_many_to_one_advertisement, &b->routing, given.nwk, given.now, given.span, &b->answer.byte)
CALL(note_relayed_discovery, &b->routing, given.nwk)
CALL(mark_discovery_failed, &b->routing, given.nwk)
CALL(record_usage, &b->routing, given.nwk)
CALL(decay_activity, &b->routing)
CALL(invalidate_via, &b->routing, given.nwk)
CALL(remove_route, &b->routing, given.nwk, &b->answer.flag)
CALL(restore_route, &b->routing, given.nwk, given.other, given.cost)
CALL(store_route_record, &b->routing, &b->store, given.nwk, given.relays, given.relay_count, &b->answer.flag)
CALL(remove_route_record, &b->routing, &b->store, given.nwk, &b->answer.flag)
CALL(note_source_routed_frame, &b->routing, given.nwk)
CALL(note_route_error, &b->routing, given.cost, &b->answer.flag)
CALL(note_delivery_failure, &b->routing, given.cost, &b->answer.flag)
CALL(reset_mtorr_triggers, &b->routing)
CALL(neighbor_count, &b->neighbors, &b->answer.count)
CALL(neighbor_at, &b->neighbors, given.place, &b->answer.neighbor)
CALL(link, &b->neighbors, given.nwk, &b->answer.link)
CALL(has_network_address, &b->neighbors, given.nwk, &b->answer.flag)
CALL(contains, &b->neighbors, given.eui64, &b->answer.flag)
CALL(device_capability, &b->neighbors, given.eui64, &b->answer.capability)
CALL(end_device_child_eui64, &b->neighbors, given.nwk, &b->answer.eui64)
CALL(sleepy_child_eui64, &b->neighbors, given.nwk, &b->answer.eui64)
CALL(sleepy_children, &b->neighbors, &b->answer.children)
CALL(end_device_children, &b->neighbors, &b->answer.eui64s)
CALL(end_device_child_count, &b->neighbors, &b->answer.count)
CALL(is_unconfirmed_end_device_child, &b->neighbors, given.eui64, &b->answer.flag)
CALL(next_child_timeout, &b->neighbors, &b->answer.time)
CALL(any_live_router_link, &b->neighbors, &b->answer.flag)
CALL(expected_broadcast_relayers, &b->neighbors, &b->answer.nwks)
CALL(link_status_entries, &b->neighbors, &b->answer.entries)
CALL(record_lqa, &b->neighbors, given.nwk, given.byte)
CALL(update_network_address, &b->neighbors, given.eui64, given.nwk)
CALL(record_outbound_activity, &b->neighbors, given.eui64)
CALL(record_inbound_activity, &b->neighbors, given.nwk)
CALL(record_transmit_failure, &b->neighbors, given.eui64)
CALL(reset_transmit_failures, &b->neighbors)
CALL(remove_neighbor, &b->neighbors, given.eui64)
CALL(refresh_child_timeout, &b->neighbors, given.flag ? &given.eui64 : NULL, given.second_flag ? &given.nwk : NULL, given.now, &b->answer.flag)
CALL(set_child_timeout, &b->neighbors, given.nwk, given.span, given.other, given.now, &b->answer.flag)
CALL(take_child, &b->neighbors, given.eui64, &b->answer.nwk)
CALL(evict_timed_out_children, &b->neighbors, given.now, &b->answer.children)
CALL(remove_claimed_children, &b->neighbors, given.eui64s, given.eui64_count, &b->answer.children)
CALL(process_parent_annce, &b->neighbors, given.eui64s, given.eui64_count, &b->answer.annce)
CALL(resolve_default, &b->routing, &b->store, &b->neighbors, &given.send, &b->header, &b->answer.decision)
CALL(clear_end_device_initiator_for_relay, &b->neighbors, &b->header, &b->answer.flag)

static enum warpteasel_status call_accept_route_request(struct bench *b) {
    struct warpteasel_route_request request = {given.nwk, given.byte & 3, given.other, given.third, given.cost, given.many_to_one};
    return warpteasel_accept_route_request(&b->routing, &request, given.now, given.span, &b->answer.request);
}

static enum warpteasel_status call_accept_route_reply(struct bench *b) {
    struct warpteasel_route_reply reply = {given.nwk, given.byte & 3, given.other, given.third, given.cost};
    return warpteasel_accept_route_reply(&b->routing, given.fourth, &reply, &b->answer.reply);
}

static enum warpteasel_status call_upsert_child(struct bench *b) {
    struct warpteasel_child child = {given.eui64, given.nwk, given.device_type, given.flag, given.span, given.relationship};
    return warpteasel_upsert_child(&b->neighbors, &child, given.now);
}

static enum warpteasel_status call_on_link_status(struct bench *b) {
    struct warpteasel_link_status_command command = {
        given.eui64, given.nwk, given.byte, given.second_flag, given.third_flag, given.entries, given.entry_count};
    return warpteasel_on_link_status(&b->neighbors, given.other, &command, given.now, &b->answer.nwk);
}

static enum warpteasel_status call_resolve(struct bench *b) {
    struct warpteasel_policy policy = {given.flag, given.second_flag, given.cost};
    return warpteasel_resolve(&b->routing, &b->store, &b->neighbors, &policy, &given.send, &b->header, &b->answer.decision);
}

/* Parts of a bench. */
enum { ROUTING = 1, STORE = 2, NEIGHBORS = 4, HEADER = 8 };

struct call {
    const char *name;
    enum warpteasel_status (*make)(struct bench *);
    unsigned lent;    /* the parts that it is given */
    unsigned changes; /* the parts that it may change; the places for its answer are always among them */
};

#define QUESTION(name, parts) {#name, call_##name, parts, 0}
#define CHANGE(name, parts) {#name, call_##name, parts, parts}

static const struct call calls[] = {
    QUESTION(next_hop, ROUTING),
    QUESTION(route_status, ROUTING),
    QUESTION(route_to, ROUTING | STORE),
    QUESTION(route_to_default, ROUTING | STORE),
    QUESTION(discovery_deadline, ROUTING),
    QUESTION(check, ROUTING),
    QUESTION(route_count, ROUTING),
    QUESTION(route_at, ROUTING),
    QUESTION(discovery_count, ROUTING),
    QUESTION(discovery_at, ROUTING),
    QUESTION(record_count, ROUTING),
    QUESTION(record_at, ROUTING | STORE),
    CHANGE(begin_discovery, ROUTING),
    CHANGE(begin_many_to_one_advertisement, ROUTING),
    CHANGE(accept_route_request, ROUTING),
    CHANGE(note_relayed_discovery, ROUTING),
    CHANGE(accept_route_reply, ROUTING),
    CHANGE(mark_discovery_failed, ROUTING),
    CHANGE(record_usage, ROUTING),
    CHANGE(decay_activity, ROUTING),
    CHANGE(invalidate_via, ROUTING),
    CHANGE(remove_route, ROUTING),
    CHANGE(restore_route, ROUTING),
    CHANGE(store_route_record, ROUTING | STORE),
    CHANGE(remove_route_record, ROUTING | STORE),
    CHANGE(note_source_routed_frame, ROUTING),
    CHANGE(note_route_error, ROUTING),
    CHANGE(note_delivery_failure, ROUTING),
    CHANGE(reset_mtorr_triggers, ROUTING),
    QUESTION(neighbor_count, NEIGHBORS),
    QUESTION(neighbor_at, NEIGHBORS),
    QUESTION(link, NEIGHBORS),
    QUESTION(has_network_address, NEIGHBORS),
    QUESTION(contains, NEIGHBORS),
    QUESTION(device_capability, NEIGHBORS),
    QUESTION(end_device_child_eui64, NEIGHBORS),
    QUESTION(sleepy_child_eui64, NEIGHBORS),
    QUESTION(sleepy_children, NEIGHBORS),
    QUESTION(end_device_children, NEIGHBORS),
    QUESTION(end_device_child_count, NEIGHBORS),
    QUESTION(is_unconfirmed_end_device_child, NEIGHBORS),
    QUESTION(next_child_timeout, NEIGHBORS),
    QUESTION(any_live_router_link, NEIGHBORS),
    QUESTION(expected_broadcast_relayers, NEIGHBORS),
    QUESTION(link_status_entries, NEIGHBORS),
    CHANGE(record_lqa, NEIGHBORS),
    CHANGE(on_link_status, NEIGHBORS),
    CHANGE(update_network_address, NEIGHBORS),
    CHANGE(record_outbound_activity, NEIGHBORS),
    CHANGE(record_inbound_activity, NEIGHBORS),
    CHANGE(record_transmit_failure, NEIGHBORS),
    CHANGE(reset_transmit_failures, NEIGHBORS),
    CHANGE(remove_neighbor, NEIGHBORS),
    CHANGE(upsert_child, NEIGHBORS),
    CHANGE(refresh_child_timeout, NEIGHBORS),
    CHANGE(set_child_timeout, NEIGHBORS),
    CHANGE(take_child, NEIGHBORS),
    CHANGE(evict_timed_out_children, NEIGHBORS),
    CHANGE(remove_claimed_children, NEIGHBORS),
    CHANGE(process_parent_annce, NEIGHBORS),
    {"resolve", call_resolve, ROUTING | STORE | NEIGHBORS | HEADER, HEADER},
    {"resolve_default", call_resolve_default, ROUTING | STORE | NEIGHBORS | HEADER, HEADER},
    {"clear_end_device_initiator_for_relay", call_clear_end_device_initiator_for_relay, NEIGHBORS | HEADER, HEADER},
};

#define CALLS (sizeof calls / sizeof calls[0])

/* ---- States that are well formed ---- */

/* Fresh states that random calls were made on. Most calls are of those that add entries, so that tables fill. */
static void grow(struct bench *b) {
    static enum warpteasel_status (*const adding[])(struct bench *) = {
        call_restore_route, call_accept_route_request, call_begin_discovery, call_note_relayed_discovery, call_store_route_record, call_upsert_child,
        call_on_link_status, call_record_lqa};
    size_t steps = below(once_in(4) ? 30 : 900);
    draw_bytes(b, sizeof *b);
    warpteasel_routing_init(&b->routing);
    warpteasel_relay_store_init(&b->store);
    warpteasel_neighbors_init(&b->neighbors);
    draw_header(&b->header);
    for (size_t i = 0; i < steps; i++) {
        draw_arguments();
        if (!once_in(20)) {
            (void)adding[below(sizeof adding / sizeof adding[0])](b);
        } else {
            (void)calls[below(CALLS)].make(b);
        }
    }
    draw_header(&b->header);
    draw_bytes(&b->answer, sizeof b->answer);
}

#endif
