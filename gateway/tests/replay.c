/* Scripts of docs/REPLAY.md, played by the functions of warpteasel.h: each line is answered as the program `replay` answers it. Lines have to be
   calls; words that have no function (those that put entries or damage a state) are not played. `tables` prints all but the samples that wait,
   which no call tells. */
#include <inttypes.h>
#include <stdio.h>
#include <stdlib.h>
#include "../warpteasel.h"

static struct warpteasel_routing routing;
static struct warpteasel_relay_store store;
static struct warpteasel_neighbors neighbors;

/* ---- A line ---- */

static const char *rest; /* of the line, behind the word */
static const char *word;

static uint64_t number(void) {
    char *end;
    uint64_t n = strtoull(rest, &end, 10);
    if (end == rest) {
        printf("replay: a number is missing\n");
        exit(1);
    }
    rest = end;
    return n;
}
static bool flag(void) { return number() != 0; }
static uint8_t byte(void) { return (uint8_t)number(); }
static uint16_t nwk(void) { return (uint16_t)number(); }
static bool is(const char *name) { return strcmp(word, name) == 0; }

/* Lists have at most 80 elements. */
static uint16_t nwks[80];
static uint64_t eui64s[80];
static size_t read_nwks(void) {
    size_t length = (size_t)number();
    for (size_t i = 0; i < length; i++) nwks[i] = nwk();
    return length;
}
static size_t read_eui64s(void) {
    size_t length = (size_t)number();
    for (size_t i = 0; i < length; i++) eui64s[i] = number();
    return length;
}

static struct warpteasel_send read_mode(void) {
    struct warpteasel_send send = {WARPTEASEL_SEND_DIRECT, 0, nwks, 0};
    send.mode = (enum warpteasel_send_mode)number();
    if (send.mode == WARPTEASEL_SEND_HINT_HOP || send.mode == WARPTEASEL_SEND_FORCE_HOP) send.hop = nwk();
    if (send.mode == WARPTEASEL_SEND_HINT_SOURCE_ROUTE || send.mode == WARPTEASEL_SEND_FORCE_SOURCE_ROUTE) send.count = read_nwks();
    if (send.count == 0) send.relays = NULL;
    return send;
}

static struct warpteasel_header read_header(void) {
    struct warpteasel_header h;
    memset(&h, 0, sizeof h);
    h.frame_control.frame_type = (enum warpteasel_frame_type)number();
    h.frame_control.protocol_version = byte();
    h.frame_control.discover_route = (enum warpteasel_discover_route)number();
    h.frame_control.multicast = flag();
    h.frame_control.security = flag();
    h.frame_control.source_route = flag();
    h.frame_control.destination = flag();
    h.frame_control.extended_source = flag();
    h.frame_control.end_device_initiator = flag();
    h.frame_control.reserved = byte();
    h.destination = nwk();
    h.source = nwk();
    h.radius = byte();
    h.sequence_number = byte();
    if ((h.has_destination_ieee = flag())) h.destination_ieee = number();
    if ((h.has_source_ieee = flag())) h.source_ieee = number();
    if ((h.has_multicast_control = flag())) h.multicast_control = byte();
    if ((h.has_source_route = flag())) {
        h.source_route.relay_index = byte();
        h.source_route.count = (size_t)number();
        for (size_t i = 0; i < h.source_route.count; i++) {
            uint16_t relay = nwk();
            if (i < WARPTEASEL_MAX_RELAYS) h.source_route.relays[i] = relay;
        }
    }
    return h;
}

/* ---- An answer ---- */

static void say(uint64_t n) { printf(" %" PRIu64, n); }
static void say_nwks(const uint16_t *list, size_t count) {
    say(count);
    for (size_t i = 0; i < count; i++) say(list[i]);
}
static void say_found(bool found, uint64_t n) {
    say(found);
    if (found) say(n);
}
static void say_update(struct warpteasel_route_update u) {
    say(u.changed);
    if (u.changed) say(u.destination), say(u.next_hop), say(u.path_cost);
}
static void say_children(const struct warpteasel_child_list *list) {
    say(list->count);
    for (size_t i = 0; i < list->count; i++) say(list->children[i].eui64), say(list->children[i].nwk);
}
static void say_eui64s(const struct warpteasel_eui64_list *list) {
    say(list->count);
    for (size_t i = 0; i < list->count; i++) say(list->eui64s[i]);
}
static void say_way(const struct warpteasel_way *way) {
    say(way->kind);
    if (way->kind == WARPTEASEL_WAY_NEXT_HOP) say(way->next_hop);
    if (way->kind == WARPTEASEL_WAY_SOURCE_ROUTE) say_nwks(way->relays, way->count);
}
static void say_route(const struct warpteasel_route *r) {
    say(r->destination), say(r->status), say(r->no_route_cache), say(r->many_to_one), say(r->route_record_required), say(r->expired);
    say(r->next_hop), say(r->path_cost), say(r->total_usage_count), say(r->recent_activity);
}
static void say_discovery(const struct warpteasel_discovery *d) {
    say(d->source_address), say(d->route_request_id), say(d->sender_address), say(d->forward_cost), say(d->residual_cost), say(d->expiration_time_ms);
    say(d->destination_address);
}
static void say_neighbor(const struct warpteasel_neighbor *n) {
    say(n->extended_address), say(n->network_address), say(n->device_type), say(n->rx_on_when_idle), say(n->end_device_configuration);
    say(n->timeout_at_ms), say(n->device_timeout_ms), say(n->relationship), say(n->transmit_failure), say(n->samples_held), say(n->next_sample);
    say(n->samples[0]), say(n->samples[1]), say(n->samples[2]), say(n->outgoing_cost), say(n->last_link_status_timestamp_ms);
    say(n->incoming_beacon_timestamp), say(n->beacon_transmission_time_offset), say(n->keepalive_received), say(n->mac_unicast_bytes_transmitted);
    say(n->mac_unicast_bytes_received), say(n->router_added_timestamp_ms), say(n->router_connectivity), say(n->router_neighbor_set_diversity);
    say(n->router_outbound_activity), say(n->router_inbound_activity), say(n->security_timer);
}
static void say_header(const struct warpteasel_header *h) {
    const struct warpteasel_frame_control *c = &h->frame_control;
    say(c->frame_type), say(c->protocol_version), say(c->discover_route), say(c->multicast), say(c->security), say(c->source_route);
    say(c->destination), say(c->extended_source), say(c->end_device_initiator), say(c->reserved);
    say(h->destination), say(h->source), say(h->radius), say(h->sequence_number);
    say_found(h->has_destination_ieee, h->destination_ieee);
    say_found(h->has_source_ieee, h->source_ieee);
    say_found(h->has_multicast_control, h->multicast_control);
    say(h->has_source_route);
    if (h->has_source_route) say(h->source_route.relay_index), say_nwks(h->source_route.relays, h->source_route.count);
}
static void say_decision(struct warpteasel_decision d, const struct warpteasel_header *h) {
    say(d.kind);
    if (d.kind == WARPTEASEL_DECISION_HOP) say(d.next_hop);
    say_header(h);
}

/* Whether a call is answered; then `ok` is printed, and its values follow. */
static bool ok(enum warpteasel_status status) {
    if (status == WARPTEASEL_OK) {
        printf("ok");
        return true;
    }
    printf("refuse %d", (int)status);
    return false;
}

/* ---- The words ---- */

/* Answers. */
static struct warpteasel_found_nwk hop;
static struct warpteasel_found_eui64 name;
static struct warpteasel_found_time time_of;
static struct warpteasel_found_route_status status_of;
static struct warpteasel_checked checked;
static struct warpteasel_route route;
static struct warpteasel_way way;
static struct warpteasel_neighbor neighbor;
static struct warpteasel_neighbor_link link_to;
static struct warpteasel_capability capability;
static struct warpteasel_parent_annce_answer annce;
static struct warpteasel_child_list children;
static struct warpteasel_eui64_list list;
static struct warpteasel_link_status_list entries;
static struct warpteasel_nwk_list relayers;
static struct warpteasel_decision decision;
static size_t count;
static uint8_t id;
static bool told;

/* How many rows there are, as a call that counts them says; none where it is refused. */
static size_t rows(enum warpteasel_status status) { return status == WARPTEASEL_OK ? count : 0; }

static void tables(void) {
    static struct warpteasel_discovery discovery;
    static struct warpteasel_record record;
    size_t routes = rows(warpteasel_route_count(&routing, &count)), discoveries = rows(warpteasel_discovery_count(&routing, &count));
    size_t records = rows(warpteasel_record_count(&routing, &count)), known = rows(warpteasel_neighbor_count(&neighbors, &count));
    printf("put_counters %d %d %d\n", routing.request_sequence_number, routing.mtorr_route_errors, routing.mtorr_delivery_failures);
    for (size_t i = 0; i < routes && warpteasel_route_at(&routing, i, &route) == WARPTEASEL_OK; i++)
        printf("put_route"), say_route(&route), printf("\n");
    for (size_t i = 0; i < discoveries && warpteasel_discovery_at(&routing, i, &discovery) == WARPTEASEL_OK; i++)
        printf("put_discovery"), say_discovery(&discovery), printf("\n");
    for (size_t i = 0; i < records && warpteasel_record_at(&routing, &store, i, &record) == WARPTEASEL_OK; i++)
        printf("put_record"), say(record.destination), say_nwks(record.relays, record.count), printf("\n");
    for (size_t i = 0; i < known && warpteasel_neighbor_at(&neighbors, i, &neighbor) == WARPTEASEL_OK; i++)
        printf("put_neighbour"), say_neighbor(&neighbor), printf("\n");
    printf("end");
}

/* The neighbor with an extended address: what its row tells. */
static void of_neighbor(void) {
    uint64_t eui64 = number();
    size_t place = 0;
    enum warpteasel_status status = warpteasel_neighbor_at(&neighbors, place, &neighbor);
    while (status == WARPTEASEL_OK && neighbor.found && neighbor.extended_address != eui64)
        status = warpteasel_neighbor_at(&neighbors, ++place, &neighbor);
    if (!ok(status)) return;
    say(neighbor.found);
    if (neighbor.found && is("lqa")) say_found(neighbor.lqa_known, neighbor.lqa);
    if (neighbor.found && is("incoming_link_cost")) say(neighbor.incoming_link_cost);
    if (neighbor.found && is("is_child")) say(neighbor.is_child);
}

/* A word's call and its answer: whether it is a word of routing. */
static bool of_routing(void) {
    if (is("note_route_error")) {
        if (ok(warpteasel_note_route_error(&routing, byte(), &told))) say(told);
    } else if (is("note_delivery_failure")) {
        if (ok(warpteasel_note_delivery_failure(&routing, byte(), &told))) say(told);
    } else if (is("reset_mtorr_triggers")) {
        (void)ok(warpteasel_reset_mtorr_triggers(&routing));
    } else if (is("route_status")) {
        if (ok(warpteasel_route_status(&routing, nwk(), &status_of))) say_found(status_of.found, status_of.status);
    } else if (is("route_count")) {
        if (ok(warpteasel_route_count(&routing, &count))) say(count);
    } else if (is("route_at")) {
        if (ok(warpteasel_route_at(&routing, (size_t)number(), &route))) {
            say(route.found);
            if (route.found) say_route(&route);
        }
    } else if (is("next_hop")) {
        if (ok(warpteasel_next_hop(&routing, nwk(), &hop))) say_found(hop.found, hop.nwk);
    } else if (is("mark_discovery_failed")) {
        (void)ok(warpteasel_mark_discovery_failed(&routing, nwk()));
    } else if (is("record_usage")) {
        (void)ok(warpteasel_record_usage(&routing, nwk()));
    } else if (is("decay_activity")) {
        (void)ok(warpteasel_decay_activity(&routing));
    } else if (is("invalidate_via")) {
        (void)ok(warpteasel_invalidate_via(&routing, nwk()));
    } else if (is("remove_route")) {
        if (ok(warpteasel_remove_route(&routing, nwk(), &told))) say(told);
    } else if (is("restore_route")) {
        uint16_t destination = nwk(), next_hop = nwk();
        (void)ok(warpteasel_restore_route(&routing, destination, next_hop, byte()));
    } else if (is("store_route_record")) {
        uint16_t source = nwk();
        count = read_nwks();
        if (ok(warpteasel_store_route_record(&routing, &store, source, count == 0 ? NULL : nwks, count, &told))) say(told);
    } else if (is("remove_route_record")) {
        if (ok(warpteasel_remove_route_record(&routing, &store, nwk(), &told))) say(told);
    } else if (is("note_source_routed_frame")) {
        (void)ok(warpteasel_note_source_routed_frame(&routing, nwk()));
    } else if (is("note_relayed_discovery")) {
        (void)ok(warpteasel_note_relayed_discovery(&routing, nwk()));
    } else if (is("discovery_deadline")) {
        uint16_t destination = nwk();
        if (ok(warpteasel_discovery_deadline(&routing, destination, number(), &time_of))) say_found(time_of.found, time_of.time_ms);
    } else if (is("route_to")) {
        uint16_t destination = nwk();
        if (ok(warpteasel_route_to(&routing, &store, destination, byte(), &way))) say_way(&way);
    } else if (is("route_to_default")) {
        if (ok(warpteasel_route_to_default(&routing, &store, nwk(), &way))) say_way(&way);
    } else if (is("begin_discovery")) {
        uint16_t own = nwk(), destination = nwk();
        uint64_t now = number();
        if (ok(warpteasel_begin_discovery(&routing, own, destination, now, number(), &id))) say(id);
    } else if (is("begin_many_to_one_advertisement")) {
        uint16_t own = nwk();
        uint64_t now = number();
        if (ok(warpteasel_begin_many_to_one_advertisement(&routing, own, now, number(), &id))) say(id);
    } else if (is("accept_route_request")) {
        struct warpteasel_route_request r;
        struct warpteasel_route_request_answer a;
        r.originator = nwk(), r.request_id = byte(), r.destination = nwk(), r.sender = nwk(), r.updated_path_cost = byte();
        r.many_to_one = (enum warpteasel_many_to_one)number();
        uint64_t now = number();
        if (ok(warpteasel_accept_route_request(&routing, &r, now, number(), &a))) say(a.accepted), say_update(a.update);
    } else if (is("accept_route_reply")) {
        struct warpteasel_route_reply r;
        struct warpteasel_route_reply_answer a;
        uint16_t own = nwk();
        r.originator = nwk(), r.request_id = byte(), r.responder = nwk(), r.sender = nwk(), r.updated_path_cost = byte();
        if (ok(warpteasel_accept_route_reply(&routing, own, &r, &a))) {
            say(a.disposition);
            if (a.disposition == WARPTEASEL_REPLY_RELAY) say(a.next_hop), say(a.path_cost);
            say_update(a.update);
        }
    } else if (is("check")) {
        if (ok(warpteasel_check(&routing, &checked))) {
            say(checked.fault);
            if (checked.fault != WARPTEASEL_SOUND) say(checked.destination);
        }
    } else {
        return false;
    }
    return true;
}

/* The same of neighbors and of the decision. */
static bool of_neighbors(void) {
    if (is("lqi_to_link_cost")) {
        printf("ok");
        say(warpteasel_lqi_to_link_cost(byte()));
    } else if (is("record_lqa")) {
        uint16_t sender = nwk();
        (void)ok(warpteasel_record_lqa(&neighbors, sender, byte()));
    } else if (is("link")) {
        if (ok(warpteasel_link(&neighbors, nwk(), &link_to))) {
            say(link_to.found);
            if (link_to.found) say(link_to.eui64), say(link_to.outgoing_cost), say(link_to.incoming_cost);
        }
    } else if (is("neighbour_count")) {
        if (ok(warpteasel_neighbor_count(&neighbors, &count))) say(count);
    } else if (is("neighbour_at")) {
        if (ok(warpteasel_neighbor_at(&neighbors, (size_t)number(), &neighbor))) {
            say(neighbor.found);
            if (neighbor.found) say_neighbor(&neighbor);
        }
    } else if (is("lqa") || is("incoming_link_cost") || is("is_child")) {
        of_neighbor();
    } else if (is("has_network_address")) {
        if (ok(warpteasel_has_network_address(&neighbors, nwk(), &told))) say(told);
    } else if (is("end_device_child_eui64")) {
        if (ok(warpteasel_end_device_child_eui64(&neighbors, nwk(), &name))) say_found(name.found, name.eui64);
    } else if (is("sleepy_child_eui64")) {
        if (ok(warpteasel_sleepy_child_eui64(&neighbors, nwk(), &name))) say_found(name.found, name.eui64);
    } else if (is("sleepy_children")) {
        if (ok(warpteasel_sleepy_children(&neighbors, &children))) say_children(&children);
    } else if (is("contains")) {
        if (ok(warpteasel_contains(&neighbors, number(), &told))) say(told);
    } else if (is("device_capability")) {
        if (ok(warpteasel_device_capability(&neighbors, number(), &capability))) {
            say(capability.found);
            if (capability.found) say(capability.device_type), say(capability.rx_on_when_idle);
        }
    } else if (is("end_device_child_count")) {
        if (ok(warpteasel_end_device_child_count(&neighbors, &count))) say(count);
    } else if (is("refresh_child_timeout")) {
        bool by_eui64 = flag();
        uint64_t eui64 = by_eui64 ? number() : 0;
        bool by_nwk = flag();
        uint16_t short_address = by_nwk ? nwk() : 0;
        if (ok(warpteasel_refresh_child_timeout(&neighbors, by_eui64 ? &eui64 : NULL, by_nwk ? &short_address : NULL, number(), &told))) say(told);
    } else if (is("set_child_timeout")) {
        uint16_t child = nwk();
        uint64_t span = number();
        uint16_t configuration = nwk();
        if (ok(warpteasel_set_child_timeout(&neighbors, child, span, configuration, number(), &told))) say(told);
    } else if (is("update_network_address")) {
        uint64_t eui64 = number();
        (void)ok(warpteasel_update_network_address(&neighbors, eui64, nwk()));
    } else if (is("take_child")) {
        if (ok(warpteasel_take_child(&neighbors, number(), &hop))) say_found(hop.found, hop.nwk);
    } else if (is("end_device_children")) {
        if (ok(warpteasel_end_device_children(&neighbors, &list))) say_eui64s(&list);
    } else if (is("is_unconfirmed_end_device_child")) {
        if (ok(warpteasel_is_unconfirmed_end_device_child(&neighbors, number(), &told))) say(told);
    } else if (is("remove_claimed_children")) {
        count = read_eui64s();
        if (ok(warpteasel_remove_claimed_children(&neighbors, count == 0 ? NULL : eui64s, count, &children))) say_children(&children);
    } else if (is("process_parent_annce")) {
        count = read_eui64s();
        if (ok(warpteasel_process_parent_annce(&neighbors, count == 0 ? NULL : eui64s, count, &annce)))
            say_eui64s(&annce.claimed), say_children(&annce.removed);
    } else if (is("evict_timed_out_children")) {
        if (ok(warpteasel_evict_timed_out_children(&neighbors, number(), &children))) say_children(&children);
    } else if (is("next_child_timeout")) {
        if (ok(warpteasel_next_child_timeout(&neighbors, &time_of))) say_found(time_of.found, time_of.time_ms);
    } else if (is("upsert_child")) {
        struct warpteasel_child c;
        c.eui64 = number(), c.nwk = nwk(), c.device_type = (enum warpteasel_device_type)number(), c.rx_on_when_idle = flag();
        c.device_timeout_ms = number(), c.relationship = (enum warpteasel_relationship)number();
        (void)ok(warpteasel_upsert_child(&neighbors, &c, number()));
    } else if (is("remove")) {
        (void)ok(warpteasel_remove_neighbor(&neighbors, number()));
    } else if (is("any_live_router_link")) {
        if (ok(warpteasel_any_live_router_link(&neighbors, &told))) say(told);
    } else if (is("expected_broadcast_relayers")) {
        if (ok(warpteasel_expected_broadcast_relayers(&neighbors, &relayers))) say_nwks(relayers.nwks, relayers.count);
    } else if (is("link_status_entries")) {
        if (ok(warpteasel_link_status_entries(&neighbors, &entries))) {
            say(entries.count);
            for (size_t i = 0; i < entries.count; i++)
                say(entries.entries[i].nwk), say(entries.entries[i].incoming_cost), say(entries.entries[i].outgoing_cost);
        }
    } else if (is("record_outbound_activity")) {
        (void)ok(warpteasel_record_outbound_activity(&neighbors, number()));
    } else if (is("record_inbound_activity")) {
        (void)ok(warpteasel_record_inbound_activity(&neighbors, nwk()));
    } else if (is("record_transmit_failure")) {
        (void)ok(warpteasel_record_transmit_failure(&neighbors, number()));
    } else if (is("reset_transmit_failures")) {
        (void)ok(warpteasel_reset_transmit_failures(&neighbors));
    } else if (is("on_link_status")) {
        struct warpteasel_link_status heard[80];
        struct warpteasel_link_status_command c;
        uint16_t own = nwk();
        c.eui64 = number(), c.nwk = nwk(), c.lqi = byte(), c.is_first_frame = flag(), c.is_last_frame = flag();
        uint64_t now = number();
        c.count = (size_t)number();
        c.entries = c.count == 0 ? NULL : heard;
        for (size_t i = 0; i < c.count; i++) heard[i].nwk = nwk(), heard[i].incoming_cost = byte(), heard[i].outgoing_cost = byte();
        if (ok(warpteasel_on_link_status(&neighbors, own, &c, now, &hop))) say_found(hop.found, hop.nwk);
    } else if (is("resolve")) {
        struct warpteasel_policy policy;
        policy.is_concentrator = flag(), policy.force_route_discovery = flag(), policy.max_source_route = byte();
        struct warpteasel_send send = read_mode();
        struct warpteasel_header header = read_header();
        if (ok(warpteasel_resolve(&routing, &store, &neighbors, &policy, &send, &header, &decision))) say_decision(decision, &header);
    } else if (is("resolve_default")) {
        struct warpteasel_send send = read_mode();
        struct warpteasel_header header = read_header();
        if (ok(warpteasel_resolve_default(&routing, &store, &neighbors, &send, &header, &decision))) say_decision(decision, &header);
    } else if (is("clear_end_device_initiator_for_relay")) {
        struct warpteasel_header header = read_header();
        if (ok(warpteasel_clear_end_device_initiator_for_relay(&neighbors, &header, &told))) say(told), say_header(&header);
    } else {
        return false;
    }
    return true;
}

int main(void) {
    static char line[8192];
    while (fgets(line, sizeof line, stdin) != NULL) {
        size_t length = strcspn(line, "\n");
        line[length] = '\0';
        if (length == 0 || line[0] == '#') continue;
        length = strcspn(line, " ");
        rest = line[length] == '\0' ? line + length : line + length + 1;
        line[length] = '\0';
        word = line;
        if (is("reset")) {
            warpteasel_routing_init(&routing);
            warpteasel_relay_store_init(&store);
            warpteasel_neighbors_init(&neighbors);
            printf("ok");
        } else if (is("tables")) {
            tables();
        } else if (!of_routing() && !of_neighbors()) {
            printf("replay: no word of this program, %s\n", word);
            return 1;
        }
        printf("\n");
    }
    return 0;
}
