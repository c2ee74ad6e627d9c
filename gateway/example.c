/* The event loop of a small gateway. Frames come in as the fields that matter here; for each the loop makes the calls that a gateway makes, and says
   what is to be sent. Then it answers a route query and decides the next hop of frames of its own. The radio, the frames' bytes and the clock
   are the gateway's own affair: here they are a list. */
#include <inttypes.h>
#include <stdio.h>
#include "warpteasel.h"

#define OWN 0x0000            /* our network address: we are the coordinator */
#define DISCOVERY_TIME 10000u /* how long a search may take, in milliseconds */

/* What a gateway keeps. All zero is the fresh state, so nothing has to be done at the start; it may be written to a file and read back. */
static struct {
    struct warpteasel_routing routing;
    struct warpteasel_relay_store store;
    struct warpteasel_neighbors neighbors;
} state;

/* A frame that was heard, taken apart. Addresses are numbers; extended addresses are written here as they are printed. */
struct frame {
    enum { LINK_STATUS, ROUTE_REQUEST, ROUTE_REPLY, ROUTE_RECORD, DATA_POLL } kind;
    uint64_t at;     /* the time */
    uint16_t sender; /* who sent it to us */
    uint8_t lqi;     /* how well it was heard */
    uint64_t eui64;  /* of the sender: in a link status, and in a poll */
    uint16_t originator, destination, responder;
    uint8_t id, cost;
    size_t count; /* of the relays, or of the link statuses */
    uint16_t relays[4];
    struct warpteasel_link_status links[4];
};

static const struct frame frames[] = {
    {.kind = LINK_STATUS, .at = 1000, .sender = 0x1a2b, .lqi = 220, .eui64 = 0x00124b0001020304, .count = 1, .links = {{OWN, 1, 1}}},
    {.kind = LINK_STATUS, .at = 1200, .sender = 0x3c4d, .lqi = 120, .eui64 = 0x00124b0005060708, .count = 2, .links = {{OWN, 3, 3}, {0x1a2b, 2, 2}}},
    {.kind = ROUTE_REQUEST, .at = 2000, .sender = 0x1a2b, .lqi = 215, .originator = 0x5555, .destination = 0x7777, .id = 9, .cost = 2},
    {.kind = ROUTE_REQUEST, .at = 2010, .sender = 0x3c4d, .lqi = 118, .originator = 0x5555, .destination = 0x7777, .id = 9, .cost = 4},
    {.kind = ROUTE_REPLY, .at = 2100, .sender = 0x3c4d, .lqi = 119, .originator = 0x5555, .responder = 0x7777, .id = 9, .cost = 1},
    {.kind = ROUTE_RECORD, .at = 2500, .sender = 0x1a2b, .lqi = 218, .originator = 0x6666, .count = 2, .relays = {0x2222, 0x1a2b}},
    {.kind = DATA_POLL, .at = 3000, .sender = 0x0c01, .lqi = 190, .eui64 = 0x00158d0000aabbcc},
    {.kind = DATA_POLL, .at = 3100, .sender = 0x0c02, .lqi = 80, .eui64 = 0x00158d0000ddeeff},
    {.kind = LINK_STATUS, .at = 16000, .sender = 0x3c4d, .lqi = 60, .eui64 = 0x00124b0005060708, .count = 1, .links = {{0x1a2b, 2, 2}}},
};

/* Whether a call was answered. A refused call has changed nothing, so the loop can go on with the next frame. */
static bool done(const char *what, enum warpteasel_status status) {
    if (status == WARPTEASEL_OK) return true;
    printf("  %s: refused, %s (%d)\n", what, warpteasel_status_text(status), (int)status);
    return false;
}

/* A frame's path cost and the link to or from its sender: as the neighbor table has it, or else by this one frame. 255 is the most that there is. */
static uint8_t path_cost(const struct frame *f, bool outgoing) {
    struct warpteasel_neighbor_link link = {0};
    uint8_t cost = 0;
    if (done("link", warpteasel_link(&state.neighbors, f->sender, &link))) cost = outgoing ? link.outgoing_cost : link.incoming_cost;
    if (cost == 0) cost = warpteasel_lqi_to_link_cost(f->lqi);
    return f->cost > 255 - cost ? 255 : (uint8_t)(f->cost + cost);
}

/* A route that changed is told to whoever keeps routes over a restart; warpteasel_restore_route puts them back. */
static void told(struct warpteasel_route_update u) {
    if (u.changed) printf("  keep: route to %04x by %04x at cost %d\n", u.destination, u.next_hop, u.path_cost);
}

static void on_link_status(const struct frame *f) {
    struct warpteasel_link_status_command command = {
        .eui64 = warpteasel_eui64_from_printed(f->eui64), .nwk = f->sender, .lqi = f->lqi, .is_first_frame = true, .is_last_frame = true,
        .entries = f->links, .count = f->count};
    struct warpteasel_found_nwk lost;
    if (!done("on_link_status", warpteasel_on_link_status(&state.neighbors, OWN, &command, f->at, &lost))) return;
    printf("link status of %04x with %zu entries\n", f->sender, f->count);
    if (lost.found && done("invalidate_via", warpteasel_invalidate_via(&state.routing, lost.nwk)))
        printf("  %04x no longer hears us: its routes are not used\n", lost.nwk);
}

static void on_route_request(const struct frame *f) {
    struct warpteasel_route_request request = {
        .originator = f->originator, .request_id = f->id, .destination = f->destination, .sender = f->sender,
        .updated_path_cost = path_cost(f, false), .many_to_one = WARPTEASEL_NOT_MANY_TO_ONE};
    struct warpteasel_route_request_answer answer;
    printf("route request %d of %04x for %04x from %04x\n", f->id, f->originator, f->destination, f->sender);
    if (!done("accept_route_request", warpteasel_accept_route_request(&state.routing, &request, f->at, DISCOVERY_TIME, &answer))) return;
    told(answer.update);
    if (!answer.accepted) {
        printf("  heard before at a lower cost: dropped\n");
    } else if (f->destination == OWN) {
        printf("  for us: send a route reply to %04x\n", f->sender);
    } else if (done("note_relayed_discovery", warpteasel_note_relayed_discovery(&state.routing, f->destination))) {
        printf("  relay it with cost %d\n", request.updated_path_cost);
    }
}

static void on_route_reply(const struct frame *f) {
    struct warpteasel_route_reply reply = {
        .originator = f->originator, .request_id = f->id, .responder = f->responder, .sender = f->sender,
        .updated_path_cost = path_cost(f, true)};
    struct warpteasel_route_reply_answer answer;
    printf("route reply %d of %04x for %04x from %04x\n", f->id, f->responder, f->originator, f->sender);
    if (!done("accept_route_reply", warpteasel_accept_route_reply(&state.routing, OWN, &reply, &answer))) return;
    told(answer.update);
    switch (answer.disposition) {
    case WARPTEASEL_REPLY_DROP: printf("  dropped\n"); break;
    case WARPTEASEL_REPLY_ESTABLISHED: printf("  our search is answered: send the frames that waited for %04x\n", f->responder); break;
    case WARPTEASEL_REPLY_RELAY: printf("  relay it to %04x with cost %d\n", answer.next_hop, answer.path_cost); break;
    }
}

static void on_route_record(const struct frame *f) {
    bool changed = false;
    printf("route record of %04x over %zu relays\n", f->originator, f->count);
    if (done("store_record", warpteasel_store_route_record(&state.routing, &state.store, f->originator, f->relays, f->count, &changed)) && changed)
        printf("  keep: another way to %04x\n", f->originator);
}

static void on_data_poll(const struct frame *f) {
    uint64_t eui64 = warpteasel_eui64_from_printed(f->eui64);
    char text[WARPTEASEL_EUI64_TEXT];
    bool known = false;
    warpteasel_eui64_text(eui64, text);
    printf("data poll of %04x, %s\n", f->sender, text);
    if (!done("refresh_child_timeout", warpteasel_refresh_child_timeout(&state.neighbors, &eui64, &f->sender, f->at, &known))) return;
    printf(known ? "  send what waits for it\n" : "  no child of ours: tell it to leave and rejoin\n");
}

/* A route query, as a client asks it: which way would a frame go? */
static void query(uint16_t destination) {
    struct warpteasel_way way;
    if (!done("route_to", warpteasel_route_to_default(&state.routing, &state.store, destination, &way))) return;
    printf("way to %04x:", destination);
    if (way.kind == WARPTEASEL_WAY_NONE) printf(" none");
    if (way.kind == WARPTEASEL_WAY_NEXT_HOP) printf(" by %04x", way.next_hop);
    for (size_t i = 0; i < way.count; i++) printf("%s %04x", i == 0 ? " by source route" : "", way.relays[i]);
    printf("\n");
}

/* A frame of our own: to whom it is given. */
static void send_to(uint16_t destination, uint64_t now) {
    struct warpteasel_send send = {.mode = WARPTEASEL_SEND_STACK_DECIDES};
    struct warpteasel_header header = {
        .frame_control = {.frame_type = WARPTEASEL_FRAME_DATA, .protocol_version = 2, .discover_route = WARPTEASEL_DISCOVERY_ENABLED},
        .destination = destination, .source = OWN, .radius = 30};
    struct warpteasel_decision decision;
    struct warpteasel_found_eui64 sleepy;
    uint8_t id;
    if (!done("resolve", warpteasel_resolve_default(&state.routing, &state.store, &state.neighbors, &send, &header, &decision))) return;
    printf("frame to %04x:", destination);
    switch (decision.kind) {
    case WARPTEASEL_DECISION_HOP:
        printf(" next hop %04x", decision.next_hop);
        if (header.has_source_route) printf(", source route of %zu relays, index %d", header.source_route.count, header.source_route.relay_index);
        printf("\n");
        if (done("record_usage", warpteasel_record_usage(&state.routing, destination)) &&
            done("sleepy_child", warpteasel_sleepy_child_eui64(&state.neighbors, decision.next_hop, &sleepy)) && sleepy.found)
            printf("  it sleeps: the frame waits for its poll\n");
        break;
    case WARPTEASEL_DECISION_DISCOVER:
        printf(" no way is known\n");
        if (done("begin_discovery", warpteasel_begin_discovery(&state.routing, OWN, destination, now, DISCOVERY_TIME, &id)))
            printf("  keep the frame, and broadcast route request %d for %04x\n", id, destination);
        break;
    case WARPTEASEL_DECISION_DISCARD: printf(" discarded\n"); break;
    }
}

/* What the loop does between frames: children that were silent for too long go. */
static void sweep(uint64_t now) {
    struct warpteasel_child_list gone = {0};
    if (!done("evict", warpteasel_evict_timed_out_children(&state.neighbors, now, &gone))) return;
    for (size_t i = 0; i < gone.count; i++) printf("child %04x was silent for too long: gone\n", gone.children[i].nwk);
}

int main(void) {
    struct warpteasel_child child = {
        .eui64 = warpteasel_eui64_from_printed(0x00158d0000aabbcc), .nwk = 0x0c01, .device_type = WARPTEASEL_END_DEVICE, .rx_on_when_idle = false,
        .device_timeout_ms = 8000, .relationship = WARPTEASEL_CHILD};
    if (done("upsert_child", warpteasel_upsert_child(&state.neighbors, &child, 0))) printf("child %04x joined\n", child.nwk);

    for (size_t i = 0; i < sizeof frames / sizeof frames[0]; i++) {
        const struct frame *f = &frames[i];
        sweep(f->at);
        if (!done("record_lqa", warpteasel_record_lqa(&state.neighbors, f->sender, f->lqi))) continue;
        switch (f->kind) {
        case LINK_STATUS: on_link_status(f); break;
        case ROUTE_REQUEST: on_route_request(f); break;
        case ROUTE_REPLY: on_route_reply(f); break;
        case ROUTE_RECORD: on_route_record(f); break;
        case DATA_POLL: on_data_poll(f); break;
        }
        /* Frames of our own, and a client's question, come in between. */
        if (f->kind == DATA_POLL && f->at == 3100) {
            query(0x6666);
            query(0x7777);
            send_to(0x6666, f->at);
            send_to(0x7777, f->at);
            send_to(0x0c01, f->at);
            send_to(0x4242, f->at);
        }
    }
    query(0x7777);
    return 0;
}
