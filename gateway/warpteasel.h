/* Zigbee route tables, proved: states that the caller keeps, and typed calls on them. For C99 and C++11.

   The state is the caller's own memory, three plain structs of fixed arrays: the routing state, the relay store of its route records, and the
   neighbors. All bytes zero is the fresh state. A state may be copied, stored, and read back by a program of the same machine; its arrays are
   for the library alone. Every call tests the states that it is lent, and refuses one that is damaged (10) and a store that disagrees (9).

   A call returns WARPTEASEL_OK, or the number of its refusal. A call that is not answered WARPTEASEL_OK writes nothing: states, header and
   places for answers are as they were, byte by byte. Where a call is answered, all of its answer is written.

   The library keeps nothing between calls and takes no memory but the stack's. A question takes a `const` state: several threads may
   ask of one state at once, as long as none changes it. A call that changes a state wants it for itself.

   Pointers have to be of live memory of the type that is named, and must not be NULL, but for two cases: a list of no elements may be NULL,
   and an optional argument is NULL where it is not given. What a call writes must not overlap anything else that it is given.

   Numbers are in the machine's own byte order.
   - A network address is a uint16_t. Over the air its lower byte goes first; warpteasel_nwk_from_bytes reads it.
   - An extended address is a uint64_t whose most significant byte goes first over the air; warpteasel_eui64_from_bytes reads it. This is not
     the number that is usually printed, whose bytes are in reversed order; warpteasel_eui64_from_printed takes that one.
   - A time is a count of milliseconds from any moment that the caller chooses; a span is in milliseconds too. Time may go back.
   - A link cost is 1 to 7, and 0 where it is not known. A path cost is a sum of link costs, and 255 where it is not known.
   - A place counts the entries of a table from 0, in ascending order of their addresses.

   The library is for x86-64. A call wants less than 16 KiB of stack, the frames of this header's functions included: warpteasel_process_parent_annce
   and warpteasel_remove_claimed_children want about 11 KiB, every other call less than 4 KiB, as gateway/tests/stack.c measures it.
   Link with libwarpteasel.a; warpteasel.pc tells pkg-config how. */
#ifndef WARPTEASEL_H
#define WARPTEASEL_H

#include <stddef.h>
#include <stdint.h>
#include <string.h>
#ifndef __cplusplus
#include <stdbool.h>
#endif
#include "warpteasel_raw.h"

/* A status that is not looked at is a warning where the compiler can tell. */
#if defined(__GNUC__)
#define WARPTEASEL_MUST_USE __attribute__((warn_unused_result))
#else
#define WARPTEASEL_MUST_USE
#endif

/* ---- Capacities ---- */

#define WARPTEASEL_MAX_ROUTES 64
#define WARPTEASEL_MAX_DISCOVERIES 32
#define WARPTEASEL_MAX_RECORDS 64
#define WARPTEASEL_MAX_RELAYS 32        /* of a route record, a source route of the host, or one in a header */
#define WARPTEASEL_MAX_NEIGHBORS 64     /* and of each list of neighbors that is an answer */
#define WARPTEASEL_MAX_WAITING 64       /* senders that are no neighbors yet, whose samples wait */
#define WARPTEASEL_MAX_LINK_STATUSES 31 /* in one command that was heard */
#define WARPTEASEL_MAX_ANNOUNCED 64     /* addresses that are announced or claimed in one call */
#define WARPTEASEL_STORE_LENGTH 2048    /* numbers of the relay store: MAX_RELAYS for each of MAX_RECORDS */

/* A call wants fewer bytes of stack than this. */
#define WARPTEASEL_STACK 16384

/* The next hop of a route that has none, or whose search is not over. */
#define WARPTEASEL_NO_HOP 0xFFFF

/* ---- What a call returns ---- */

enum warpteasel_status {
    WARPTEASEL_OK = 0,
    WARPTEASEL_ROUTE_TABLE_FULL = 1,     /* the call needs more new routes than are free */
    WARPTEASEL_DISCOVERY_TABLE_FULL = 2, /* the same of discoveries */
    WARPTEASEL_RECORD_TABLE_FULL = 3,    /* the same of route records */
    WARPTEASEL_NEIGHBOR_TABLE_FULL = 4,  /* the same of neighbors */
    WARPTEASEL_TIME_PAST_END = 5,        /* a time that the call has to note lies past 2^64 - 1 */
    WARPTEASEL_UNKNOWN_NEXT_HOP = 6,     /* the Active route that is to be used has the hop WARPTEASEL_NO_HOP */
    WARPTEASEL_EMPTY_SOURCE_ROUTE = 7,   /* the source route of the host that is to be used has no relays */
    WARPTEASEL_LIST_TOO_LONG = 8,        /* a list has more elements than its capacity above */
    WARPTEASEL_STORE_DISAGREES = 9,      /* the relay store is damaged, or belongs to another routing state */
    WARPTEASEL_STATE_ILL_FORMED = 10,    /* a state is damaged */
    WARPTEASEL_LINK_COST_TOO_HIGH = 11,  /* a cost of a link status is above 7 */
    WARPTEASEL_NO_CALL = 255             /* an argument is no value of its type: an enum is none of its names, or a list with elements is NULL */
};

/* The refusals of a call are listed at it by their numbers, in the order in which they are tested; what is WARPTEASEL_NO_CALL is that before
   any of them. */

/* A status in words, for a log. */
static inline const char *warpteasel_status_text(enum warpteasel_status status) {
    switch (status) {
    case WARPTEASEL_OK: return "done";
    case WARPTEASEL_ROUTE_TABLE_FULL: return "the route table is full";
    case WARPTEASEL_DISCOVERY_TABLE_FULL: return "the discovery table is full";
    case WARPTEASEL_RECORD_TABLE_FULL: return "the route record table is full";
    case WARPTEASEL_NEIGHBOR_TABLE_FULL: return "the neighbor table is full";
    case WARPTEASEL_TIME_PAST_END: return "a time lies past the end of the clock";
    case WARPTEASEL_UNKNOWN_NEXT_HOP: return "an active route has no known hop";
    case WARPTEASEL_EMPTY_SOURCE_ROUTE: return "the source route given has no relays";
    case WARPTEASEL_LIST_TOO_LONG: return "a list is too long";
    case WARPTEASEL_STORE_DISAGREES: return "the relay store and the route records disagree";
    case WARPTEASEL_STATE_ILL_FORMED: return "the state is damaged";
    case WARPTEASEL_LINK_COST_TOO_HIGH: return "a link cost is above 7";
    case WARPTEASEL_NO_CALL: return "an argument is no value of its type";
    }
    return "no status";
}

/* ---- The states ---- */

/* The routing state: routes, discoveries (searches underway) and route records, two counters and the last request id. */
struct warpteasel_routing {
    uint16_t route_keys[WARPTEASEL_MAX_ROUTES];
    uint64_t route_words[WARPTEASEL_MAX_ROUTES];
    uint32_t route_usage[WARPTEASEL_MAX_ROUTES];
    size_t routes;
    uint32_t discovery_keys[WARPTEASEL_MAX_DISCOVERIES];
    uint64_t discovery_words[WARPTEASEL_MAX_DISCOVERIES];
    uint64_t discovery_ends[WARPTEASEL_MAX_DISCOVERIES];
    size_t discoveries;
    uint16_t record_keys[WARPTEASEL_MAX_RECORDS];
    uint8_t record_lengths[WARPTEASEL_MAX_RECORDS];
    size_t records;
    uint8_t mtorr_route_errors;
    uint8_t mtorr_delivery_failures;
    uint8_t request_sequence_number;
};

/* The relays of the route records. A store belongs to one routing state: keep, copy and store the two together. */
struct warpteasel_relay_store {
    uint16_t relays[WARPTEASEL_STORE_LENGTH];
};

/* The neighbors, and the senders that are none yet, whose link quality samples wait. */
struct warpteasel_neighbors {
    uint64_t keys[WARPTEASEL_MAX_NEIGHBORS];
    uint16_t nwks[WARPTEASEL_MAX_NEIGHBORS];
    uint64_t links[WARPTEASEL_MAX_NEIGHBORS];
    uint64_t counts[WARPTEASEL_MAX_NEIGHBORS];
    uint64_t deadlines[WARPTEASEL_MAX_NEIGHBORS];
    uint64_t periods[WARPTEASEL_MAX_NEIGHBORS];
    uint64_t heard[WARPTEASEL_MAX_NEIGHBORS];
    uint64_t added[WARPTEASEL_MAX_NEIGHBORS];
    uint64_t beacons[WARPTEASEL_MAX_NEIGHBORS];
    uint64_t bytes[WARPTEASEL_MAX_NEIGHBORS];
    size_t count;
    uint16_t senders[WARPTEASEL_MAX_WAITING];
    uint64_t samples[WARPTEASEL_MAX_WAITING];
    size_t waiting;
};

/* Makes a routing state fresh: no route, no discovery, no record, counters and request id 0. Make its relay store fresh with it. */
static inline void warpteasel_routing_init(struct warpteasel_routing *routing) { memset(routing, 0, sizeof *routing); }

/* Makes a relay store fresh. */
static inline void warpteasel_relay_store_init(struct warpteasel_relay_store *store) { memset(store, 0, sizeof *store); }

/* Makes neighbors fresh: no neighbor, no sample waiting. */
static inline void warpteasel_neighbors_init(struct warpteasel_neighbors *neighbors) { memset(neighbors, 0, sizeof *neighbors); }

/* ---- Addresses and their bytes ---- */

/* A network address from its two bytes as they go over the air, the lower one first. */
static inline uint16_t warpteasel_nwk_from_bytes(const uint8_t bytes[2]) { return (uint16_t)(bytes[0] | (unsigned)bytes[1] << 8); }

/* The two bytes of a network address as they go over the air, the lower one first. */
static inline void warpteasel_nwk_to_bytes(uint16_t nwk, uint8_t bytes[2]) {
    bytes[0] = (uint8_t)(nwk & 0xFF);
    bytes[1] = (uint8_t)(nwk >> 8);
}

/* An extended address from its eight bytes as they go over the air: the first byte becomes the most significant one. */
static inline uint64_t warpteasel_eui64_from_bytes(const uint8_t bytes[8]) {
    uint64_t eui64 = 0;
    for (int i = 0; i < 8; i++) eui64 = eui64 << 8 | bytes[i];
    return eui64;
}

/* The eight bytes of an extended address as they go over the air. */
static inline void warpteasel_eui64_to_bytes(uint64_t eui64, uint8_t bytes[8]) {
    for (int i = 0; i < 8; i++) bytes[i] = (uint8_t)(eui64 >> (56 - 8 * i) & 0xFF);
}

/* The number that is printed for an extended address: its bytes are those over the air in reversed order. In hexadecimal it reads
   as on a label; 00:12:4b:00:01:02:03:04 is 0x00124b0001020304. */
static inline uint64_t warpteasel_eui64_to_printed(uint64_t eui64) {
    uint64_t printed = 0;
    for (int i = 0; i < 8; i++) printed = printed << 8 | (eui64 >> 8 * i & 0xFF);
    return printed;
}

/* An extended address from the number that is printed for it. */
static inline uint64_t warpteasel_eui64_from_printed(uint64_t printed) { return warpteasel_eui64_to_printed(printed); }

/* How many bytes the text of an extended address takes, its end included. */
#define WARPTEASEL_EUI64_TEXT 24

/* An extended address as text, in the order that is printed: 00:12:4b:00:01:02:03:04. */
static inline void warpteasel_eui64_text(uint64_t eui64, char text[WARPTEASEL_EUI64_TEXT]) {
    static const char digits[] = "0123456789abcdef";
    for (int i = 0; i < 8; i++) {
        text[3 * i] = digits[eui64 >> (8 * i + 4) & 15];
        text[3 * i + 1] = digits[eui64 >> 8 * i & 15];
        text[3 * i + 2] = i < 7 ? ':' : '\0';
    }
}

/* ---- Values of arguments and answers ---- */

/* How a route stands. */
enum warpteasel_route_state {
    WARPTEASEL_ROUTE_ACTIVE = 0,
    WARPTEASEL_ROUTE_DISCOVERY_UNDERWAY = 1,
    WARPTEASEL_ROUTE_DISCOVERY_FAILED = 2,
    WARPTEASEL_ROUTE_INACTIVE = 3
};

/* The many-to-one field of a route request. */
enum warpteasel_many_to_one {
    WARPTEASEL_NOT_MANY_TO_ONE = 0,
    WARPTEASEL_MANY_TO_ONE = 1,          /* the sender keeps route records */
    WARPTEASEL_MANY_TO_ONE_NO_CACHE = 2, /* the sender keeps none */
    WARPTEASEL_MANY_TO_ONE_RESERVED = 3  /* treated as 1 */
};

/* What is to be done with a route reply. */
enum warpteasel_disposition {
    WARPTEASEL_REPLY_DROP = 0,
    WARPTEASEL_REPLY_ESTABLISHED = 1, /* it answers our own search: the route can be used */
    WARPTEASEL_REPLY_RELAY = 2
};

/* The way to a destination. */
enum warpteasel_way_kind {
    WARPTEASEL_WAY_NONE = 0,
    WARPTEASEL_WAY_NEXT_HOP = 1,
    WARPTEASEL_WAY_SOURCE_ROUTE = 2
};

/* What the table check finds. */
enum warpteasel_fault {
    WARPTEASEL_SOUND = 0,
    WARPTEASEL_FAULT_UNKNOWN_HOP = 1, /* an Active route has no known hop */
    WARPTEASEL_FAULT_NO_DISCOVERY = 2 /* a route whose search is underway, and no discovery names its destination */
};

enum warpteasel_device_type {
    WARPTEASEL_COORDINATOR = 0,
    WARPTEASEL_ROUTER = 1,
    WARPTEASEL_END_DEVICE = 2
};

/* What a neighbor is to us. WARPTEASEL_CHILD and WARPTEASEL_UNAUTHENTICATED_CHILD are children; the others are none. */
enum warpteasel_relationship {
    WARPTEASEL_PARENT = 0,
    WARPTEASEL_CHILD = 1,
    WARPTEASEL_SIBLING = 2,
    WARPTEASEL_NONE_OF_THESE = 3,
    WARPTEASEL_PREVIOUS_CHILD = 4,
    WARPTEASEL_UNAUTHENTICATED_CHILD = 5,
    WARPTEASEL_UNAUTHORIZED_CHILD_RELAY_ALLOWED = 6,
    WARPTEASEL_LOST_CHILD = 7,
    WARPTEASEL_ADDRESS_CONFLICT_CHILD = 8,
    WARPTEASEL_BACKBONE_SIBLING = 9
};

/* What a frame carries. */
enum warpteasel_frame_type {
    WARPTEASEL_FRAME_DATA = 0,
    WARPTEASEL_FRAME_COMMAND = 1,
    WARPTEASEL_FRAME_INTERPAN = 3
};

/* Whether a route may be discovered for a frame. */
enum warpteasel_discover_route {
    WARPTEASEL_DISCOVERY_SUPPRESSED = 0,
    WARPTEASEL_DISCOVERY_ENABLED = 1,
    WARPTEASEL_DISCOVERY_WITH_MULTICAST = 2 /* counts as enabled */
};

/* How a frame is to be sent. A hint is used where the tables name no way, a command in any case. */
enum warpteasel_send_mode {
    WARPTEASEL_SEND_DIRECT = 0,            /* straight to the destination */
    WARPTEASEL_SEND_STACK_DECIDES = 1,     /* by the tables alone */
    WARPTEASEL_SEND_HINT_HOP = 2,          /* `hop` as a hint */
    WARPTEASEL_SEND_HINT_SOURCE_ROUTE = 3, /* `relays` as a hint */
    WARPTEASEL_SEND_FORCE_HOP = 4,         /* `hop` as a command */
    WARPTEASEL_SEND_FORCE_SOURCE_ROUTE = 5 /* `relays` as a command */
};

/* What is decided of a frame. */
enum warpteasel_decision_kind {
    WARPTEASEL_DECISION_HOP = 0,      /* send it to next_hop */
    WARPTEASEL_DECISION_DISCOVER = 1, /* keep it and search for a route */
    WARPTEASEL_DECISION_DISCARD = 2   /* no way is known, and its header forbids a search */
};

/* Values that there may be. Where `found` is false the other fields are 0. */
struct warpteasel_found_nwk {
    bool found;
    uint16_t nwk;
};
struct warpteasel_found_eui64 {
    bool found;
    uint64_t eui64;
};
struct warpteasel_found_time {
    bool found;
    uint64_t time_ms;
};
struct warpteasel_found_route_status {
    bool found;
    enum warpteasel_route_state status;
};

/* A route. Where `found` is false all fields are 0. */
struct warpteasel_route {
    bool found;
    uint16_t destination;
    enum warpteasel_route_state status;
    bool no_route_cache;        /* the destination keeps no route records */
    bool many_to_one;           /* the destination is a concentrator */
    bool route_record_required; /* a route record has to go before the next data frame */
    bool expired;
    uint16_t next_hop; /* WARPTEASEL_NO_HOP where none is known */
    uint8_t path_cost;
    uint32_t total_usage_count;
    uint8_t recent_activity;
};

/* A discovery: a search of ours or one that we relay. Where `found` is false all fields are 0. */
struct warpteasel_discovery {
    bool found;
    uint16_t source_address; /* who searches */
    uint8_t route_request_id;
    uint16_t sender_address; /* who sent us the cheapest request: replies go back there; WARPTEASEL_NO_HOP for our own search */
    uint8_t forward_cost;    /* from the source to us */
    uint8_t residual_cost;   /* from us to the destination; 255 before a reply */
    uint64_t expiration_time_ms;
    uint16_t destination_address;
};

/* A route record: `count` relays from the destination to us, the one next to the destination first. Places from the count on are 0, and
   where `found` is false all fields are 0. */
struct warpteasel_record {
    bool found;
    uint16_t destination;
    size_t count;
    uint16_t relays[WARPTEASEL_MAX_RELAYS];
};

/* What the table check says: the first fault in ascending order of destination, and the destination of its route; 0 where there is none. */
struct warpteasel_checked {
    enum warpteasel_fault fault;
    uint16_t destination;
};

/* The way to a destination. WARPTEASEL_WAY_NEXT_HOP has next_hop; WARPTEASEL_WAY_SOURCE_ROUTE has `count` relays, at least one, and the frame goes to
   the last of them. Fields that do not count are 0. */
struct warpteasel_way {
    enum warpteasel_way_kind kind;
    uint16_t next_hop;
    size_t count;
    uint16_t relays[WARPTEASEL_MAX_RELAYS];
};

/* A route that a call made Active or gave another next hop, for a client that keeps routes. Where `changed` is false the other fields are 0. */
struct warpteasel_route_update {
    bool changed;
    uint16_t destination;
    uint16_t next_hop;
    uint8_t path_cost;
};

/* A route request that was heard. */
struct warpteasel_route_request {
    uint16_t originator;       /* who searches: the source in the frame's network header */
    uint8_t request_id;
    uint16_t destination;      /* whom it searches for */
    uint16_t sender;           /* who sent us the frame */
    uint8_t updated_path_cost; /* the path cost of the command plus the cost of the link from the sender */
    enum warpteasel_many_to_one many_to_one;
};

/* Whether a request is accepted: only then is it answered or relayed. */
struct warpteasel_route_request_answer {
    bool accepted;
    struct warpteasel_route_update update;
};

/* A route reply that was heard. */
struct warpteasel_route_reply {
    uint16_t originator;       /* who searched */
    uint8_t request_id;
    uint16_t responder;        /* whom it searched for */
    uint16_t sender;           /* who sent us the frame */
    uint8_t updated_path_cost; /* the path cost of the command plus the cost of the link to the sender */
};

/* What is to be done with a reply. WARPTEASEL_REPLY_RELAY has the hop to relay it to and the cost to relay it with; else these are 0. */
struct warpteasel_route_reply_answer {
    enum warpteasel_disposition disposition;
    uint16_t next_hop;
    uint8_t path_cost;
    struct warpteasel_route_update update;
};

/* The radio link to a neighbor. Where `found` is false all fields are 0. */
struct warpteasel_neighbor_link {
    bool found;
    uint64_t eui64;
    uint8_t outgoing_cost; /* as the neighbor measures it; 0 unknown */
    uint8_t incoming_cost; /* as we measure it; 0 unknown */
};

/* What a device can do. Where `found` is false all fields are 0. */
struct warpteasel_capability {
    bool found;
    enum warpteasel_device_type device_type;
    bool rx_on_when_idle;
};

/* A neighbor. Where `found` is false all fields are 0. */
struct warpteasel_neighbor {
    bool found;
    uint64_t extended_address;
    uint16_t network_address;
    enum warpteasel_device_type device_type;
    bool rx_on_when_idle;
    uint16_t end_device_configuration;
    uint64_t timeout_at_ms;     /* when a child is evicted that sends no keepalive before */
    uint64_t device_timeout_ms; /* the span by which a keepalive moves it */
    enum warpteasel_relationship relationship;
    uint8_t transmit_failure;
    uint8_t samples_held; /* how many link quality samples there are, at most 3 */
    uint8_t next_sample;  /* the place that the next one takes */
    uint8_t samples[3];
    uint8_t outgoing_cost; /* 0 unknown */
    uint64_t last_link_status_timestamp_ms;
    uint32_t incoming_beacon_timestamp;
    uint32_t beacon_transmission_time_offset;
    bool keepalive_received;
    uint32_t mac_unicast_bytes_transmitted;
    uint32_t mac_unicast_bytes_received;
    uint64_t router_added_timestamp_ms;
    uint8_t router_connectivity;
    uint8_t router_neighbor_set_diversity;
    uint8_t router_outbound_activity;
    uint8_t router_inbound_activity;
    uint8_t security_timer;
    bool lqa_known;             /* whether there are three samples */
    uint8_t lqa;                /* their median, 0 to 255 */
    uint8_t incoming_link_cost; /* its cost; 0 unknown */
    bool is_child;
};

/* A child that joins or rejoins. */
struct warpteasel_child {
    uint64_t eui64;
    uint16_t nwk;
    enum warpteasel_device_type device_type;
    bool rx_on_when_idle;
    uint64_t device_timeout_ms; /* the span within which it has to send a keepalive */
    enum warpteasel_relationship relationship;
};

/* Lists that are answers: `count` elements, and 0 in the places from there on. */
struct warpteasel_eui64_list {
    size_t count;
    uint64_t eui64s[WARPTEASEL_MAX_NEIGHBORS];
};
struct warpteasel_nwk_list {
    size_t count;
    uint16_t nwks[WARPTEASEL_MAX_NEIGHBORS];
};

/* The two addresses of a child. */
struct warpteasel_child_address {
    uint64_t eui64;
    uint16_t nwk;
};
struct warpteasel_child_list {
    size_t count;
    struct warpteasel_child_address children[WARPTEASEL_MAX_NEIGHBORS];
};

/* The children to claim back, and those that were removed. */
struct warpteasel_parent_annce_answer {
    struct warpteasel_eui64_list claimed;
    struct warpteasel_child_list removed;
};

/* One entry of a link status command: a neighbor of its sender, and the costs of the link as that sender knows them, 0 to 7. */
struct warpteasel_link_status {
    uint16_t nwk;
    uint8_t incoming_cost;
    uint8_t outgoing_cost;
};
struct warpteasel_link_status_list {
    size_t count;
    struct warpteasel_link_status entries[WARPTEASEL_MAX_NEIGHBORS];
};

/* A link status command that was heard. */
struct warpteasel_link_status_command {
    uint64_t eui64; /* the sender's addresses */
    uint16_t nwk;
    uint8_t lqi;    /* the link quality of this frame, 0 to 255 */
    bool is_first_frame;
    bool is_last_frame;
    const struct warpteasel_link_status *entries; /* NULL where there are none */
    size_t count;                                 /* of the entries; at most WARPTEASEL_MAX_LINK_STATUSES */
};

/* The settings that a decision reads. The default policy is {true, false, 12}. */
struct warpteasel_policy {
    bool is_concentrator;       /* route records are used */
    bool force_route_discovery; /* routes and records are passed over */
    uint8_t max_source_route;   /* a record is used where it has fewer relays than this */
};

/* How a frame is to be sent. `hop` and `relays` count in the modes that name them. */
struct warpteasel_send {
    enum warpteasel_send_mode mode;
    uint16_t hop;
    const uint16_t *relays; /* network addresses, the one next to the destination first; NULL where there are none */
    size_t count;           /* of the relays; at most WARPTEASEL_MAX_RELAYS */
};

/* The first two bytes of a network header. */
struct warpteasel_frame_control {
    enum warpteasel_frame_type frame_type;
    uint8_t protocol_version; /* 4 bits */
    enum warpteasel_discover_route discover_route;
    bool multicast;
    bool security;
    bool source_route;
    bool destination;     /* the extended address of the destination is there */
    bool extended_source; /* the extended address of the source is there */
    bool end_device_initiator;
    uint8_t reserved; /* 2 bits */
};

/* The source route of a header: `count` relays, the one next to the destination first, and the place of the relay that is to come. */
struct warpteasel_source_route {
    uint8_t relay_index;
    size_t count;
    uint16_t relays[WARPTEASEL_MAX_RELAYS];
};

/* A network header. Of its fields the library is given those that the call's comment names; the others it neither reads nor writes.
   All bytes zero is a header without anything. */
struct warpteasel_header {
    struct warpteasel_frame_control frame_control;
    uint16_t destination;
    uint16_t source;
    uint8_t radius;
    uint8_t sequence_number;
    bool has_destination_ieee;
    uint64_t destination_ieee;
    bool has_source_ieee;
    uint64_t source_ieee;
    bool has_multicast_control;
    uint8_t multicast_control;
    bool has_source_route;
    struct warpteasel_source_route source_route;
};

/* What is decided of a frame. next_hop is 0 where the kind is not WARPTEASEL_DECISION_HOP. */
struct warpteasel_decision {
    enum warpteasel_decision_kind kind;
    uint16_t next_hop;
};

/* ---- For this header alone ---- */

/* The columns of a state, as the library is lent them. */
#define WARPTEASEL_ROUTES_(s) \
    (s)->route_keys, WARPTEASEL_MAX_ROUTES, (s)->route_words, WARPTEASEL_MAX_ROUTES, (s)->route_usage, WARPTEASEL_MAX_ROUTES
#define WARPTEASEL_DISCOVERIES_(s) \
    (s)->discovery_keys, WARPTEASEL_MAX_DISCOVERIES, (s)->discovery_words, WARPTEASEL_MAX_DISCOVERIES, (s)->discovery_ends, \
        WARPTEASEL_MAX_DISCOVERIES
#define WARPTEASEL_RECORDS_(s) (s)->record_keys, WARPTEASEL_MAX_RECORDS, (s)->record_lengths, WARPTEASEL_MAX_RECORDS
#define WARPTEASEL_NEIGHBORS_(s) \
    (s)->keys, WARPTEASEL_MAX_NEIGHBORS, (s)->nwks, WARPTEASEL_MAX_NEIGHBORS, (s)->links, WARPTEASEL_MAX_NEIGHBORS, \
        (s)->counts, WARPTEASEL_MAX_NEIGHBORS, (s)->deadlines, WARPTEASEL_MAX_NEIGHBORS, (s)->periods, WARPTEASEL_MAX_NEIGHBORS, \
        (s)->heard, WARPTEASEL_MAX_NEIGHBORS, (s)->added, WARPTEASEL_MAX_NEIGHBORS, (s)->beacons, WARPTEASEL_MAX_NEIGHBORS, \
        (s)->bytes, WARPTEASEL_MAX_NEIGHBORS
#define WARPTEASEL_WAITING_(s) (s)->senders, WARPTEASEL_MAX_WAITING, (s)->samples, WARPTEASEL_MAX_WAITING
#define WARPTEASEL_STORE_(s) (s)->relays, WARPTEASEL_STORE_LENGTH

/* The columns and counts of a state that a call changes no count of. */
#define WARPTEASEL_ROUTING_(s) \
    WARPTEASEL_ROUTES_(s), (s)->routes, WARPTEASEL_DISCOVERIES_(s), (s)->discoveries, WARPTEASEL_RECORDS_(s), (s)->records
#define WARPTEASEL_NEIGHBORHOOD_(s) WARPTEASEL_NEIGHBORS_(s), (s)->count, WARPTEASEL_WAITING_(s), (s)->waiting

static inline enum warpteasel_status warpteasel_status_(uint8_t number) { return (enum warpteasel_status)number; }

/* The number of an enum; what is past a byte is no value of any. */
static inline uint8_t warpteasel_number_(unsigned value) { return value < 255 ? (uint8_t)value : 255; }

static inline uint8_t warpteasel_flag_(bool b) { return b ? 1 : 0; }

/* As much of a list as the library has to see to know that it is too long. */
static inline size_t warpteasel_shown_(size_t count, size_t capacity) { return count > capacity ? capacity + 1 : count; }

/* The library wants a pointer for a list of no elements, too. */
static inline const uint16_t *warpteasel_nwks_(const uint16_t *list) {
    static const uint16_t none = 0;
    return list != NULL ? list : &none;
}
static inline const uint64_t *warpteasel_eui64s_(const uint64_t *list) {
    static const uint64_t none = 0;
    return list != NULL ? list : &none;
}

/* Two columns that the library wrote, as a list of children. */
static inline void warpteasel_join_(struct warpteasel_child_list *list, size_t count, const uint64_t *eui64s, const uint16_t *nwks) {
    list->count = count;
    for (size_t i = 0; i < WARPTEASEL_MAX_NEIGHBORS; i++) {
        list->children[i].eui64 = eui64s[i];
        list->children[i].nwk = nwks[i];
    }
}

/* What a decision left of a header's enum and flags. */
static inline void warpteasel_rewrite_(struct warpteasel_header *header, uint8_t discover_route, uint8_t source_route, uint8_t has_source_route) {
    header->frame_control.discover_route = (enum warpteasel_discover_route)discover_route;
    header->frame_control.source_route = source_route != 0;
    header->has_source_route = has_source_route != 0;
}

/* ---- Routing: questions ---- */

/* The next hop to a destination by its Active route.
   destination: a network address, as a number. hop: not found where there is no Active route.
   Refusals: 10, 6. */
WARPTEASEL_MUST_USE static inline enum warpteasel_status warpteasel_next_hop(
    const struct warpteasel_routing *routing, uint16_t destination, struct warpteasel_found_nwk *hop) {
    uint8_t found = 0;
    uint8_t status = warpteasel_raw_next_hop(WARPTEASEL_ROUTING_(routing), destination, &found, &hop->nwk);
    if (status == 0) hop->found = found != 0;
    return warpteasel_status_(status);
}

/* How the route to a destination stands.
   destination: a network address, as a number. answer: not found where there is no route.
   Refusals: 10. */
WARPTEASEL_MUST_USE static inline enum warpteasel_status warpteasel_route_status(
    const struct warpteasel_routing *routing, uint16_t destination, struct warpteasel_found_route_status *answer) {
    uint8_t found = 0, number = 0;
    uint8_t status = warpteasel_raw_route_status(WARPTEASEL_ROUTING_(routing), destination, &found, &number);
    if (status == 0) {
        answer->found = found != 0;
        answer->status = (enum warpteasel_route_state)number;
    }
    return warpteasel_status_(status);
}

/* The way to a destination: the destination itself where its route record has no relays; by the relays of its record, if they are fewer than
   the limit; else by the Active route.
   destination: a network address, as a number. max_source_route: the limit, a count of relays.
   Refusals: 10, 9, 6. */
WARPTEASEL_MUST_USE static inline enum warpteasel_status warpteasel_route_to(
    const struct warpteasel_routing *routing, const struct warpteasel_relay_store *store, uint16_t destination, uint8_t max_source_route,
    struct warpteasel_way *way) {
    uint8_t kind = 0;
    uint8_t status = warpteasel_raw_route_to(
        WARPTEASEL_ROUTING_(routing), WARPTEASEL_STORE_(store), destination, max_source_route, &kind, &way->next_hop, &way->count, way->relays,
        WARPTEASEL_MAX_RELAYS);
    if (status == 0) way->kind = (enum warpteasel_way_kind)kind;
    return warpteasel_status_(status);
}

/* The way to a destination with the limit of the default policy, 12 relays.
   destination: a network address, as a number.
   Refusals: 10, 9, 6. */
WARPTEASEL_MUST_USE static inline enum warpteasel_status warpteasel_route_to_default(
    const struct warpteasel_routing *routing, const struct warpteasel_relay_store *store, uint16_t destination, struct warpteasel_way *way) {
    uint8_t kind = 0;
    uint8_t status = warpteasel_raw_route_to_default(
        WARPTEASEL_ROUTING_(routing), WARPTEASEL_STORE_(store), destination, &kind, &way->next_hop, &way->count, way->relays,
        WARPTEASEL_MAX_RELAYS);
    if (status == 0) way->kind = (enum warpteasel_way_kind)kind;
    return warpteasel_status_(status);
}

/* When the first discovery of the way to a destination that is not over at now_ms is over.
   destination: a network address, as a number. now_ms: the time. deadline: a time; not found where there is no such discovery.
   Refusals: 10. */
WARPTEASEL_MUST_USE static inline enum warpteasel_status warpteasel_discovery_deadline(
    const struct warpteasel_routing *routing, uint16_t destination, uint64_t now_ms, struct warpteasel_found_time *deadline) {
    uint8_t found = 0;
    uint8_t status = warpteasel_raw_discovery_deadline(WARPTEASEL_ROUTING_(routing), destination, now_ms, &found, &deadline->time_ms);
    if (status == 0) deadline->found = found != 0;
    return warpteasel_status_(status);
}

/* The table check: whether every Active route has a known hop, and every route whose search is underway a discovery.
   Refusals: 10. */
WARPTEASEL_MUST_USE static inline enum warpteasel_status warpteasel_check(
    const struct warpteasel_routing *routing, struct warpteasel_checked *checked) {
    uint8_t fault = 0;
    uint8_t status = warpteasel_raw_check(WARPTEASEL_ROUTING_(routing), &fault, &checked->destination);
    if (status == 0) checked->fault = (enum warpteasel_fault)fault;
    return warpteasel_status_(status);
}

/* How many routes there are.
   Refusals: 10. */
WARPTEASEL_MUST_USE static inline enum warpteasel_status warpteasel_route_count(const struct warpteasel_routing *routing, size_t *count) {
    return warpteasel_status_(warpteasel_raw_route_count(WARPTEASEL_ROUTING_(routing), count));
}

/* The route at a place, in ascending order of destination.
   place: from 0; from the count on nothing is found.
   Refusals: 10. */
WARPTEASEL_MUST_USE static inline enum warpteasel_status warpteasel_route_at(
    const struct warpteasel_routing *routing, size_t place, struct warpteasel_route *route) {
    uint8_t found = 0, number = 0, no_route_cache = 0, many_to_one = 0, route_record_required = 0, expired = 0;
    uint8_t status = warpteasel_raw_route_at(
        WARPTEASEL_ROUTING_(routing), place, &found, &route->destination, &number, &no_route_cache, &many_to_one, &route_record_required, &expired,
        &route->next_hop, &route->path_cost, &route->total_usage_count, &route->recent_activity);
    if (status == 0) {
        route->found = found != 0;
        route->status = (enum warpteasel_route_state)number;
        route->no_route_cache = no_route_cache != 0;
        route->many_to_one = many_to_one != 0;
        route->route_record_required = route_record_required != 0;
        route->expired = expired != 0;
    }
    return warpteasel_status_(status);
}

/* How many discoveries there are, those that are over and not yet removed included.
   Refusals: 10. */
WARPTEASEL_MUST_USE static inline enum warpteasel_status warpteasel_discovery_count(const struct warpteasel_routing *routing, size_t *count) {
    return warpteasel_status_(warpteasel_raw_discovery_count(WARPTEASEL_ROUTING_(routing), count));
}

/* The discovery at a place, in ascending order of source address and then request id.
   place: from 0; from the count on nothing is found.
   Refusals: 10. */
WARPTEASEL_MUST_USE static inline enum warpteasel_status warpteasel_discovery_at(
    const struct warpteasel_routing *routing, size_t place, struct warpteasel_discovery *discovery) {
    uint8_t found = 0;
    uint8_t status = warpteasel_raw_discovery_at(
        WARPTEASEL_ROUTING_(routing), place, &found, &discovery->source_address, &discovery->route_request_id, &discovery->sender_address,
        &discovery->forward_cost, &discovery->residual_cost, &discovery->expiration_time_ms, &discovery->destination_address);
    if (status == 0) discovery->found = found != 0;
    return warpteasel_status_(status);
}

/* How many route records there are.
   Refusals: 10. */
WARPTEASEL_MUST_USE static inline enum warpteasel_status warpteasel_record_count(const struct warpteasel_routing *routing, size_t *count) {
    return warpteasel_status_(warpteasel_raw_record_count(WARPTEASEL_ROUTING_(routing), count));
}

/* The route record at a place with its relays, in ascending order of destination.
   place: from 0; from the count on nothing is found.
   Refusals: 10, 9. */
WARPTEASEL_MUST_USE static inline enum warpteasel_status warpteasel_record_at(
    const struct warpteasel_routing *routing, const struct warpteasel_relay_store *store, size_t place, struct warpteasel_record *record) {
    uint8_t found = 0;
    uint8_t status = warpteasel_raw_record_at(
        WARPTEASEL_ROUTING_(routing), WARPTEASEL_STORE_(store), place, &found, &record->destination, &record->count, record->relays,
        WARPTEASEL_MAX_RELAYS);
    if (status == 0) record->found = found != 0;
    return warpteasel_status_(status);
}

/* ---- Routing: searches ---- */

/* Begins a search of our own. Discoveries that are over are removed; the route to the destination becomes DiscoveryUnderway, made if absent.
   own, destination: network addresses, as numbers. now_ms: the time. route_discovery_time_ms: how long the search may take, a span.
   request_id: the id to put into the route request.
   Refusals: 10, 5, 1, 2. */
WARPTEASEL_MUST_USE static inline enum warpteasel_status warpteasel_begin_discovery(
    struct warpteasel_routing *routing, uint16_t own, uint16_t destination, uint64_t now_ms, uint64_t route_discovery_time_ms,
    uint8_t *request_id) {
    return warpteasel_status_(warpteasel_raw_begin_discovery(
        WARPTEASEL_ROUTES_(routing), &routing->routes, WARPTEASEL_DISCOVERIES_(routing), &routing->discoveries, WARPTEASEL_RECORDS_(routing),
        routing->records, &routing->request_sequence_number, own, destination, now_ms, route_discovery_time_ms, request_id));
}

/* Begins a many-to-one advertisement: no route is made, and copies of it that come back will not be accepted. Discoveries that are over are
   removed.
   own: a network address, as a number. now_ms: the time. route_discovery_time_ms: how long copies may come back, a span.
   request_id: the id to put into the route request.
   Refusals: 10, 5, 2. */
WARPTEASEL_MUST_USE static inline enum warpteasel_status warpteasel_begin_many_to_one_advertisement(
    struct warpteasel_routing *routing, uint16_t own, uint64_t now_ms, uint64_t route_discovery_time_ms, uint8_t *request_id) {
    return warpteasel_status_(warpteasel_raw_begin_many_to_one_advertisement(
        WARPTEASEL_ROUTES_(routing), &routing->routes, WARPTEASEL_DISCOVERIES_(routing), &routing->discoveries, WARPTEASEL_RECORDS_(routing),
        routing->records, &routing->request_sequence_number, own, now_ms, route_discovery_time_ms, request_id));
}

/* A route request was heard. It is not accepted where the same search was heard at a lower cost; else the route to its originator considers
   the sender as its next hop. Discoveries that are over are removed.
   request: its addresses are numbers. now_ms: the time. route_discovery_time_ms: how long the search may take, a span.
   answer: whether it is accepted, and the originator's route if that changed.
   Refusals: 10, 5, 1, 2; WARPTEASEL_NO_CALL for a many_to_one that is none. */
WARPTEASEL_MUST_USE static inline enum warpteasel_status warpteasel_accept_route_request(
    struct warpteasel_routing *routing, const struct warpteasel_route_request *request, uint64_t now_ms, uint64_t route_discovery_time_ms,
    struct warpteasel_route_request_answer *answer) {
    uint8_t accepted = 0, changed = 0;
    uint8_t status = warpteasel_raw_accept_route_request(
        WARPTEASEL_ROUTES_(routing), &routing->routes, WARPTEASEL_DISCOVERIES_(routing), &routing->discoveries, WARPTEASEL_RECORDS_(routing),
        routing->records, request->originator, request->request_id, request->destination, request->sender, request->updated_path_cost,
        warpteasel_number_((unsigned)request->many_to_one), now_ms, route_discovery_time_ms, &accepted, &changed, &answer->update.destination,
        &answer->update.next_hop, &answer->update.path_cost);
    if (status == 0) {
        answer->accepted = accepted != 0;
        answer->update.changed = changed != 0;
    }
    return warpteasel_status_(status);
}

/* Before a route request is relayed: the search for its destination is underway, unless the route there is Active.
   destination: a network address, as a number.
   Refusals: 10, 1. */
WARPTEASEL_MUST_USE static inline enum warpteasel_status warpteasel_note_relayed_discovery(
    struct warpteasel_routing *routing, uint16_t destination) {
    return warpteasel_status_(warpteasel_raw_note_relayed_discovery(
        WARPTEASEL_ROUTES_(routing), &routing->routes, WARPTEASEL_DISCOVERIES_(routing), routing->discoveries, WARPTEASEL_RECORDS_(routing),
        routing->records, destination));
}

/* A route reply was heard: it is dropped, establishes the route of our own search, or is to be relayed.
   own: our network address, as a number. reply: its addresses are numbers.
   answer: what is to be done with it, and the route that changed, if one did: the responder's where it establishes, the originator's where it
   is relayed.
   Refusals: 10, 1. */
WARPTEASEL_MUST_USE static inline enum warpteasel_status warpteasel_accept_route_reply(
    struct warpteasel_routing *routing, uint16_t own, const struct warpteasel_route_reply *reply,
    struct warpteasel_route_reply_answer *answer) {
    uint8_t disposition = 0, changed = 0;
    uint8_t status = warpteasel_raw_accept_route_reply(
        WARPTEASEL_ROUTES_(routing), &routing->routes, WARPTEASEL_DISCOVERIES_(routing), routing->discoveries, WARPTEASEL_RECORDS_(routing),
        routing->records, own, reply->originator, reply->request_id, reply->responder, reply->sender, reply->updated_path_cost, &disposition,
        &answer->next_hop, &answer->path_cost, &changed, &answer->update.destination, &answer->update.next_hop, &answer->update.path_cost);
    if (status == 0) {
        answer->disposition = (enum warpteasel_disposition)disposition;
        answer->update.changed = changed != 0;
    }
    return warpteasel_status_(status);
}

/* ---- Routing: routes ---- */

/* No search for the way to a destination has brought one: its route, if there is one, becomes DiscoveryFailed.
   destination: a network address, as a number.
   Refusals: 10. */
WARPTEASEL_MUST_USE static inline enum warpteasel_status warpteasel_mark_discovery_failed(
    struct warpteasel_routing *routing, uint16_t destination) {
    return warpteasel_status_(warpteasel_raw_mark_discovery_failed(WARPTEASEL_ROUTING_(routing), destination));
}

/* A frame was forwarded along the route to a destination: its two counts of use go up.
   destination: a network address, as a number.
   Refusals: 10. */
WARPTEASEL_MUST_USE static inline enum warpteasel_status warpteasel_record_usage(struct warpteasel_routing *routing, uint16_t destination) {
    return warpteasel_status_(warpteasel_raw_record_usage(WARPTEASEL_ROUTING_(routing), destination));
}

/* Once a link status period: the recent activity of every Active route goes down.
   Refusals: 10. */
WARPTEASEL_MUST_USE static inline enum warpteasel_status warpteasel_decay_activity(struct warpteasel_routing *routing) {
    return warpteasel_status_(warpteasel_raw_decay_activity(WARPTEASEL_ROUTING_(routing)));
}

/* A next hop is lost: every Active route by it becomes Inactive.
   next_hop: a network address, as a number.
   Refusals: 10. */
WARPTEASEL_MUST_USE static inline enum warpteasel_status warpteasel_invalidate_via(struct warpteasel_routing *routing, uint16_t next_hop) {
    return warpteasel_status_(warpteasel_raw_invalidate_via(WARPTEASEL_ROUTING_(routing), next_hop));
}

/* Removes the route to a destination.
   destination: a network address, as a number. removed: whether there was one.
   Refusals: 10. */
WARPTEASEL_MUST_USE static inline enum warpteasel_status warpteasel_remove_route(
    struct warpteasel_routing *routing, uint16_t destination, bool *removed) {
    uint8_t told = 0;
    uint8_t status = warpteasel_raw_remove_route(
        WARPTEASEL_ROUTES_(routing), &routing->routes, WARPTEASEL_DISCOVERIES_(routing), routing->discoveries, WARPTEASEL_RECORDS_(routing),
        routing->records, destination, &told);
    if (status == 0) *removed = told != 0;
    return warpteasel_status_(status);
}

/* Puts back an Active route that a client kept, over any route to that destination.
   destination, next_hop: network addresses, as numbers. path_cost: as it was reported.
   Refusals: 10, 1. */
WARPTEASEL_MUST_USE static inline enum warpteasel_status warpteasel_restore_route(
    struct warpteasel_routing *routing, uint16_t destination, uint16_t next_hop, uint8_t path_cost) {
    return warpteasel_status_(warpteasel_raw_restore_route(
        WARPTEASEL_ROUTES_(routing), &routing->routes, WARPTEASEL_DISCOVERIES_(routing), routing->discoveries, WARPTEASEL_RECORDS_(routing),
        routing->records, destination, next_hop, path_cost));
}

/* ---- Routing: route records ---- */

/* A route record was heard: each relay gets the relays after it, and then the source gets all of them.
   source: a network address, as a number. relays: `count` network addresses, the one next to the source first; NULL where count is 0. They
   must not lie in the store. changed: whether the source's record is another one now.
   Refusals: 10, 9, 8 (above WARPTEASEL_MAX_RELAYS), 3; WARPTEASEL_NO_CALL for relays that are NULL where count is not 0. */
WARPTEASEL_MUST_USE static inline enum warpteasel_status warpteasel_store_route_record(
    struct warpteasel_routing *routing, struct warpteasel_relay_store *store, uint16_t source, const uint16_t *relays, size_t count,
    bool *changed) {
    uint8_t told = 0, status;
    if (relays == NULL && count != 0) return WARPTEASEL_NO_CALL;
    status = warpteasel_raw_store_route_record(
        WARPTEASEL_ROUTES_(routing), routing->routes, WARPTEASEL_DISCOVERIES_(routing), routing->discoveries, WARPTEASEL_RECORDS_(routing),
        &routing->records, WARPTEASEL_STORE_(store), source, warpteasel_nwks_(relays), warpteasel_shown_(count, WARPTEASEL_MAX_RELAYS), &told);
    if (status == 0) *changed = told != 0;
    return warpteasel_status_(status);
}

/* Removes the route record of a destination.
   destination: a network address, as a number. removed: whether there was one.
   Refusals: 10, 9. */
WARPTEASEL_MUST_USE static inline enum warpteasel_status warpteasel_remove_route_record(
    struct warpteasel_routing *routing, struct warpteasel_relay_store *store, uint16_t destination, bool *removed) {
    uint8_t told = 0;
    uint8_t status = warpteasel_raw_remove_route_record(
        WARPTEASEL_ROUTES_(routing), routing->routes, WARPTEASEL_DISCOVERIES_(routing), routing->discoveries, WARPTEASEL_RECORDS_(routing),
        &routing->records, WARPTEASEL_STORE_(store), destination, &told);
    if (status == 0) *removed = told != 0;
    return warpteasel_status_(status);
}

/* A source-routed frame of a concentrator was relayed, so it holds our route record: none has to go before the next frame to it, unless it
   keeps no route records.
   concentrator: a network address, as a number.
   Refusals: 10. */
WARPTEASEL_MUST_USE static inline enum warpteasel_status warpteasel_note_source_routed_frame(
    struct warpteasel_routing *routing, uint16_t concentrator) {
    return warpteasel_status_(warpteasel_raw_note_source_routed_frame(WARPTEASEL_ROUTING_(routing), concentrator));
}

/* ---- Routing: signals for an early many-to-one advertisement ---- */

/* A route failure was heard: one signal more.
   threshold: a count of signals. reached: whether the signals of this kind reach it.
   Refusals: 10. */
WARPTEASEL_MUST_USE static inline enum warpteasel_status warpteasel_note_route_error(
    struct warpteasel_routing *routing, uint8_t threshold, bool *reached) {
    uint8_t told = 0;
    uint8_t status = warpteasel_raw_note_route_error(WARPTEASEL_ROUTING_(routing), &routing->mtorr_route_errors, threshold, &told);
    if (status == 0) *reached = told != 0;
    return warpteasel_status_(status);
}

/* A delivery of our own failed: one signal more.
   threshold: a count of signals. reached: whether the signals of this kind reach it.
   Refusals: 10. */
WARPTEASEL_MUST_USE static inline enum warpteasel_status warpteasel_note_delivery_failure(
    struct warpteasel_routing *routing, uint8_t threshold, bool *reached) {
    uint8_t told = 0;
    uint8_t status = warpteasel_raw_note_delivery_failure(WARPTEASEL_ROUTING_(routing), &routing->mtorr_delivery_failures, threshold, &told);
    if (status == 0) *reached = told != 0;
    return warpteasel_status_(status);
}

/* A many-to-one advertisement went out: the signals of both kinds are spent.
   Refusals: 10. */
WARPTEASEL_MUST_USE static inline enum warpteasel_status warpteasel_reset_mtorr_triggers(struct warpteasel_routing *routing) {
    return warpteasel_status_(warpteasel_raw_reset_mtorr_triggers(
        WARPTEASEL_ROUTING_(routing), &routing->mtorr_route_errors, &routing->mtorr_delivery_failures));
}

/* ---- Neighbors: questions ---- */

/* The cost, 1 to 7, of a link quality, 0 to 255. It asks no state and is not refused. */
static inline uint8_t warpteasel_lqi_to_link_cost(uint8_t lqi) { return warpteasel_raw_lqi_to_link_cost(lqi); }

/* How many neighbors there are.
   Refusals: 10. */
WARPTEASEL_MUST_USE static inline enum warpteasel_status warpteasel_neighbor_count(const struct warpteasel_neighbors *neighbors, size_t *count) {
    return warpteasel_status_(warpteasel_raw_neighbor_count(WARPTEASEL_NEIGHBORHOOD_(neighbors), count));
}

/* The neighbor at a place, in ascending order of extended address as a number.
   place: from 0; from the count on nothing is found. neighbor: its times are in milliseconds.
   Refusals: 10. */
WARPTEASEL_MUST_USE static inline enum warpteasel_status warpteasel_neighbor_at(
    const struct warpteasel_neighbors *neighbors, size_t place, struct warpteasel_neighbor *neighbor) {
    uint8_t found = 0, device_type = 0, rx_on_when_idle = 0, relationship = 0, keepalive_received = 0, lqa_known = 0, is_child = 0;
    uint8_t status = warpteasel_raw_neighbor_at(
        WARPTEASEL_NEIGHBORHOOD_(neighbors), place, &found, &neighbor->extended_address, &neighbor->network_address, &device_type, &rx_on_when_idle,
        &neighbor->end_device_configuration, &neighbor->timeout_at_ms, &neighbor->device_timeout_ms, &relationship, &neighbor->transmit_failure,
        &neighbor->samples_held, &neighbor->next_sample, &neighbor->samples[0], &neighbor->samples[1], &neighbor->samples[2],
        &neighbor->outgoing_cost, &neighbor->last_link_status_timestamp_ms, &neighbor->incoming_beacon_timestamp,
        &neighbor->beacon_transmission_time_offset, &keepalive_received, &neighbor->mac_unicast_bytes_transmitted,
        &neighbor->mac_unicast_bytes_received, &neighbor->router_added_timestamp_ms, &neighbor->router_connectivity,
        &neighbor->router_neighbor_set_diversity, &neighbor->router_outbound_activity, &neighbor->router_inbound_activity,
        &neighbor->security_timer, &lqa_known, &neighbor->lqa, &neighbor->incoming_link_cost, &is_child);
    if (status == 0) {
        neighbor->found = found != 0;
        neighbor->device_type = (enum warpteasel_device_type)device_type;
        neighbor->rx_on_when_idle = rx_on_when_idle != 0;
        neighbor->relationship = (enum warpteasel_relationship)relationship;
        neighbor->keepalive_received = keepalive_received != 0;
        neighbor->lqa_known = lqa_known != 0;
        neighbor->is_child = is_child != 0;
    }
    return warpteasel_status_(status);
}

/* The radio link to the neighbor with a network address.
   nwk: a network address, as a number. link: its eui64 is as warpteasel_eui64_from_bytes makes it; not found where there is no such neighbor.
   Refusals: 10. */
WARPTEASEL_MUST_USE static inline enum warpteasel_status warpteasel_link(
    const struct warpteasel_neighbors *neighbors, uint16_t nwk, struct warpteasel_neighbor_link *link) {
    uint8_t found = 0;
    uint8_t status = warpteasel_raw_link(
        WARPTEASEL_NEIGHBORHOOD_(neighbors), nwk, &found, &link->eui64, &link->outgoing_cost, &link->incoming_cost);
    if (status == 0) link->found = found != 0;
    return warpteasel_status_(status);
}

/* Whether a neighbor has a network address.
   nwk: a network address, as a number.
   Refusals: 10. */
WARPTEASEL_MUST_USE static inline enum warpteasel_status warpteasel_has_network_address(
    const struct warpteasel_neighbors *neighbors, uint16_t nwk, bool *has) {
    uint8_t told = 0;
    uint8_t status = warpteasel_raw_has_network_address(WARPTEASEL_NEIGHBORHOOD_(neighbors), nwk, &told);
    if (status == 0) *has = told != 0;
    return warpteasel_status_(status);
}

/* Whether there is a neighbor with an extended address.
   eui64: an extended address, as warpteasel_eui64_from_bytes makes it.
   Refusals: 10. */
WARPTEASEL_MUST_USE static inline enum warpteasel_status warpteasel_contains(
    const struct warpteasel_neighbors *neighbors, uint64_t eui64, bool *contains) {
    uint8_t told = 0;
    uint8_t status = warpteasel_raw_contains(WARPTEASEL_NEIGHBORHOOD_(neighbors), eui64, &told);
    if (status == 0) *contains = told != 0;
    return warpteasel_status_(status);
}

/* The device type of a neighbor, and whether it listens when idle.
   eui64: an extended address, as warpteasel_eui64_from_bytes makes it. capability: not found where there is no such neighbor.
   Refusals: 10. */
WARPTEASEL_MUST_USE static inline enum warpteasel_status warpteasel_device_capability(
    const struct warpteasel_neighbors *neighbors, uint64_t eui64, struct warpteasel_capability *capability) {
    uint8_t found = 0, device_type = 0, rx_on_when_idle = 0;
    uint8_t status = warpteasel_raw_device_capability(WARPTEASEL_NEIGHBORHOOD_(neighbors), eui64, &found, &device_type, &rx_on_when_idle);
    if (status == 0) {
        capability->found = found != 0;
        capability->device_type = (enum warpteasel_device_type)device_type;
        capability->rx_on_when_idle = rx_on_when_idle != 0;
    }
    return warpteasel_status_(status);
}

/* The extended address of the end device child with a network address.
   nwk: a network address, as a number. child: as warpteasel_eui64_from_bytes makes it; not found where there is no such child.
   Refusals: 10. */
WARPTEASEL_MUST_USE static inline enum warpteasel_status warpteasel_end_device_child_eui64(
    const struct warpteasel_neighbors *neighbors, uint16_t nwk, struct warpteasel_found_eui64 *child) {
    uint8_t found = 0;
    uint8_t status = warpteasel_raw_end_device_child_eui64(WARPTEASEL_NEIGHBORHOOD_(neighbors), nwk, &found, &child->eui64);
    if (status == 0) child->found = found != 0;
    return warpteasel_status_(status);
}

/* The extended address of the sleepy child (one that does not listen when idle) with a network address: frames to it wait until it polls.
   nwk: a network address, as a number. child: as warpteasel_eui64_from_bytes makes it; not found where there is no such child.
   Refusals: 10. */
WARPTEASEL_MUST_USE static inline enum warpteasel_status warpteasel_sleepy_child_eui64(
    const struct warpteasel_neighbors *neighbors, uint16_t nwk, struct warpteasel_found_eui64 *child) {
    uint8_t found = 0;
    uint8_t status = warpteasel_raw_sleepy_child_eui64(WARPTEASEL_NEIGHBORHOOD_(neighbors), nwk, &found, &child->eui64);
    if (status == 0) child->found = found != 0;
    return warpteasel_status_(status);
}

/* All sleepy children: a broadcast has to be sent to each by itself. In ascending order of extended address as a number.
   list: extended addresses as warpteasel_eui64_from_bytes makes them, network addresses as numbers.
   Refusals: 10. */
WARPTEASEL_MUST_USE static inline enum warpteasel_status warpteasel_sleepy_children(
    const struct warpteasel_neighbors *neighbors, struct warpteasel_child_list *list) {
    size_t count = 0;
    uint64_t eui64s[WARPTEASEL_MAX_NEIGHBORS];
    uint16_t nwks[WARPTEASEL_MAX_NEIGHBORS];
    uint8_t status = warpteasel_raw_sleepy_children(
        WARPTEASEL_NEIGHBORHOOD_(neighbors), &count, eui64s, WARPTEASEL_MAX_NEIGHBORS, nwks, WARPTEASEL_MAX_NEIGHBORS);
    if (status == 0) warpteasel_join_(list, count, eui64s, nwks);
    return warpteasel_status_(status);
}

/* All end device children, for a parent announcement. In ascending order of extended address as a number.
   list: extended addresses as warpteasel_eui64_from_bytes makes them.
   Refusals: 10. */
WARPTEASEL_MUST_USE static inline enum warpteasel_status warpteasel_end_device_children(
    const struct warpteasel_neighbors *neighbors, struct warpteasel_eui64_list *list) {
    return warpteasel_status_(warpteasel_raw_end_device_children(
        WARPTEASEL_NEIGHBORHOOD_(neighbors), &list->count, list->eui64s, WARPTEASEL_MAX_NEIGHBORS));
}

/* How many end device children there are.
   Refusals: 10. */
WARPTEASEL_MUST_USE static inline enum warpteasel_status warpteasel_end_device_child_count(
    const struct warpteasel_neighbors *neighbors, size_t *count) {
    return warpteasel_status_(warpteasel_raw_end_device_child_count(WARPTEASEL_NEIGHBORHOOD_(neighbors), count));
}

/* Whether a device is an end device child that has sent no keepalive yet.
   eui64: an extended address, as warpteasel_eui64_from_bytes makes it.
   Refusals: 10. */
WARPTEASEL_MUST_USE static inline enum warpteasel_status warpteasel_is_unconfirmed_end_device_child(
    const struct warpteasel_neighbors *neighbors, uint64_t eui64, bool *is) {
    uint8_t told = 0;
    uint8_t status = warpteasel_raw_is_unconfirmed_end_device_child(WARPTEASEL_NEIGHBORHOOD_(neighbors), eui64, &told);
    if (status == 0) *is = told != 0;
    return warpteasel_status_(status);
}

/* When the first end device child is to be evicted, if it sends no keepalive.
   timeout: a time; not found where there is no end device child.
   Refusals: 10. */
WARPTEASEL_MUST_USE static inline enum warpteasel_status warpteasel_next_child_timeout(
    const struct warpteasel_neighbors *neighbors, struct warpteasel_found_time *timeout) {
    uint8_t found = 0;
    uint8_t status = warpteasel_raw_next_child_timeout(WARPTEASEL_NEIGHBORHOOD_(neighbors), &found, &timeout->time_ms);
    if (status == 0) timeout->found = found != 0;
    return warpteasel_status_(status);
}

/* Whether a router among the neighbors hears us: its outgoing cost is above 0.
   Refusals: 10. */
WARPTEASEL_MUST_USE static inline enum warpteasel_status warpteasel_any_live_router_link(
    const struct warpteasel_neighbors *neighbors, bool *any) {
    uint8_t told = 0;
    uint8_t status = warpteasel_raw_any_live_router_link(WARPTEASEL_NEIGHBORHOOD_(neighbors), &told);
    if (status == 0) *any = told != 0;
    return warpteasel_status_(status);
}

/* The routers that hear us, and so should relay our broadcasts. In ascending order of their extended addresses as numbers.
   list: network addresses, as numbers.
   Refusals: 10. */
WARPTEASEL_MUST_USE static inline enum warpteasel_status warpteasel_expected_broadcast_relayers(
    const struct warpteasel_neighbors *neighbors, struct warpteasel_nwk_list *list) {
    return warpteasel_status_(warpteasel_raw_expected_broadcast_relayers(
        WARPTEASEL_NEIGHBORHOOD_(neighbors), &list->count, list->nwks, WARPTEASEL_MAX_NEIGHBORS));
}

/* The entries of our own link status: each router with three samples. In ascending order of their extended addresses as numbers.
   list: network addresses as numbers, costs 0 to 7.
   Refusals: 10. */
WARPTEASEL_MUST_USE static inline enum warpteasel_status warpteasel_link_status_entries(
    const struct warpteasel_neighbors *neighbors, struct warpteasel_link_status_list *list) {
    size_t count = 0;
    uint16_t nwks[WARPTEASEL_MAX_NEIGHBORS];
    uint8_t incoming[WARPTEASEL_MAX_NEIGHBORS], outgoing[WARPTEASEL_MAX_NEIGHBORS];
    uint8_t status = warpteasel_raw_link_status_entries(
        WARPTEASEL_NEIGHBORHOOD_(neighbors), &count, nwks, WARPTEASEL_MAX_NEIGHBORS, incoming, WARPTEASEL_MAX_NEIGHBORS, outgoing,
        WARPTEASEL_MAX_NEIGHBORS);
    if (status == 0) {
        list->count = count;
        for (size_t i = 0; i < WARPTEASEL_MAX_NEIGHBORS; i++) {
            list->entries[i].nwk = nwks[i];
            list->entries[i].incoming_cost = incoming[i];
            list->entries[i].outgoing_cost = outgoing[i];
        }
    }
    return warpteasel_status_(status);
}

/* ---- Neighbors: links ---- */

/* A frame was heard: a link quality sample of the device that sent it, which need not be the frame's source. Samples of a sender that is no
   neighbor wait; a 65th such sender pushes out the one with the lowest address.
   sender: a network address, as a number. lqi: the link quality, 0 to 255.
   Refusals: 10. */
WARPTEASEL_MUST_USE static inline enum warpteasel_status warpteasel_record_lqa(struct warpteasel_neighbors *neighbors, uint16_t sender, uint8_t lqi) {
    return warpteasel_status_(warpteasel_raw_record_lqa(
        WARPTEASEL_NEIGHBORS_(neighbors), neighbors->count, WARPTEASEL_WAITING_(neighbors), &neighbors->waiting, sender, lqi));
}

/* A link status command was heard: its sender becomes a neighbor if it is none, and what it says of us is our outgoing cost to it.
   own: our network address, as a number. command: eui64 as warpteasel_eui64_from_bytes makes it, network addresses as numbers. now_ms: the time.
   lost: the sender's network address where it no longer hears us; call warpteasel_invalidate_via with it.
   Refusals: 10, 8 (above WARPTEASEL_MAX_LINK_STATUSES), 11, 5, 4; WARPTEASEL_NO_CALL for entries that are NULL where their count is not 0. */
WARPTEASEL_MUST_USE static inline enum warpteasel_status warpteasel_on_link_status(
    struct warpteasel_neighbors *neighbors, uint16_t own, const struct warpteasel_link_status_command *command, uint64_t now_ms,
    struct warpteasel_found_nwk *lost) {
    uint16_t nwks[WARPTEASEL_MAX_LINK_STATUSES + 1];
    uint8_t incoming[WARPTEASEL_MAX_LINK_STATUSES + 1], outgoing[WARPTEASEL_MAX_LINK_STATUSES + 1];
    uint8_t found = 0, status;
    size_t count = warpteasel_shown_(command->count, WARPTEASEL_MAX_LINK_STATUSES);
    if (command->entries == NULL && count != 0) return WARPTEASEL_NO_CALL;
    for (size_t i = 0; i < count; i++) {
        nwks[i] = command->entries[i].nwk;
        incoming[i] = command->entries[i].incoming_cost;
        outgoing[i] = command->entries[i].outgoing_cost;
    }
    status = warpteasel_raw_on_link_status(
        WARPTEASEL_NEIGHBORS_(neighbors), &neighbors->count, WARPTEASEL_WAITING_(neighbors), &neighbors->waiting, own, command->eui64, command->nwk,
        command->lqi, warpteasel_flag_(command->is_first_frame), warpteasel_flag_(command->is_last_frame), nwks, count, incoming, count, outgoing,
        count, now_ms, &found, &lost->nwk);
    if (status == 0) lost->found = found != 0;
    return warpteasel_status_(status);
}

/* A neighbor has another network address now. Of an unknown device nothing is noted.
   eui64: an extended address, as warpteasel_eui64_from_bytes makes it. nwk: a network address, as a number.
   Refusals: 10. */
WARPTEASEL_MUST_USE static inline enum warpteasel_status warpteasel_update_network_address(
    struct warpteasel_neighbors *neighbors, uint64_t eui64, uint16_t nwk) {
    return warpteasel_status_(warpteasel_raw_update_network_address(WARPTEASEL_NEIGHBORHOOD_(neighbors), eui64, nwk));
}

/* A unicast was forwarded to this neighbor: its outbound activity goes up.
   eui64: an extended address, as warpteasel_eui64_from_bytes makes it.
   Refusals: 10. */
WARPTEASEL_MUST_USE static inline enum warpteasel_status warpteasel_record_outbound_activity(
    struct warpteasel_neighbors *neighbors, uint64_t eui64) {
    return warpteasel_status_(warpteasel_raw_record_outbound_activity(WARPTEASEL_NEIGHBORHOOD_(neighbors), eui64));
}

/* A unicast to be relayed came from this neighbor: its inbound activity goes up.
   nwk: a network address, as a number.
   Refusals: 10. */
WARPTEASEL_MUST_USE static inline enum warpteasel_status warpteasel_record_inbound_activity(struct warpteasel_neighbors *neighbors, uint16_t nwk) {
    return warpteasel_status_(warpteasel_raw_record_inbound_activity(WARPTEASEL_NEIGHBORHOOD_(neighbors), nwk));
}

/* A unicast to this neighbor was not acknowledged: its failures go up.
   eui64: an extended address, as warpteasel_eui64_from_bytes makes it.
   Refusals: 10. */
WARPTEASEL_MUST_USE static inline enum warpteasel_status warpteasel_record_transmit_failure(
    struct warpteasel_neighbors *neighbors, uint64_t eui64) {
    return warpteasel_status_(warpteasel_raw_record_transmit_failure(WARPTEASEL_NEIGHBORHOOD_(neighbors), eui64));
}

/* The failures of all neighbors become 0, as is due when the count of all transmissions wraps.
   Refusals: 10. */
WARPTEASEL_MUST_USE static inline enum warpteasel_status warpteasel_reset_transmit_failures(struct warpteasel_neighbors *neighbors) {
    return warpteasel_status_(warpteasel_raw_reset_transmit_failures(WARPTEASEL_NEIGHBORHOOD_(neighbors)));
}

/* Removes a neighbor, if it is one.
   eui64: an extended address, as warpteasel_eui64_from_bytes makes it.
   Refusals: 10. */
WARPTEASEL_MUST_USE static inline enum warpteasel_status warpteasel_remove_neighbor(struct warpteasel_neighbors *neighbors, uint64_t eui64) {
    return warpteasel_status_(warpteasel_raw_remove_neighbor(
        WARPTEASEL_NEIGHBORS_(neighbors), &neighbors->count, WARPTEASEL_WAITING_(neighbors), neighbors->waiting, eui64));
}

/* ---- Neighbors: children ---- */

/* A child joins or rejoins. Of a known device only what `child` says, and its deadline, are written anew.
   child: eui64 as warpteasel_eui64_from_bytes makes it, nwk as a number, device_timeout_ms a span. now_ms: the time.
   Refusals: 10, 5, 4; WARPTEASEL_NO_CALL for a device_type or a relationship that is none. */
WARPTEASEL_MUST_USE static inline enum warpteasel_status warpteasel_upsert_child(
    struct warpteasel_neighbors *neighbors, const struct warpteasel_child *child, uint64_t now_ms) {
    return warpteasel_status_(warpteasel_raw_upsert_child(
        WARPTEASEL_NEIGHBORS_(neighbors), &neighbors->count, WARPTEASEL_WAITING_(neighbors), neighbors->waiting, child->eui64, child->nwk,
        warpteasel_number_((unsigned)child->device_type), warpteasel_flag_(child->rx_on_when_idle), child->device_timeout_ms,
        warpteasel_number_((unsigned)child->relationship), now_ms));
}

/* A data poll was heard: the deadline of its sender moves. The sender is looked for by its extended address, and then by its network address.
   eui64: an extended address, as warpteasel_eui64_from_bytes makes it, or NULL. nwk: a network address, as a number, or NULL. now_ms: the time.
   known: whether the sender is a neighbor.
   Refusals: 10, 5. */
WARPTEASEL_MUST_USE static inline enum warpteasel_status warpteasel_refresh_child_timeout(
    struct warpteasel_neighbors *neighbors, const uint64_t *eui64, const uint16_t *nwk, uint64_t now_ms, bool *known) {
    uint8_t told = 0;
    uint8_t status = warpteasel_raw_refresh_child_timeout(
        WARPTEASEL_NEIGHBORHOOD_(neighbors), warpteasel_flag_(eui64 != NULL), *warpteasel_eui64s_(eui64), warpteasel_flag_(nwk != NULL),
        *warpteasel_nwks_(nwk), now_ms, &told);
    if (status == 0) *known = told != 0;
    return warpteasel_status_(status);
}

/* An end device child asks for another timeout.
   nwk: a network address, as a number. timeout_ms: a span. configuration: the end device configuration of the command. now_ms: the time.
   known: whether there is such a child; if not, nothing is noted.
   Refusals: 10, 5. */
WARPTEASEL_MUST_USE static inline enum warpteasel_status warpteasel_set_child_timeout(
    struct warpteasel_neighbors *neighbors, uint16_t nwk, uint64_t timeout_ms, uint16_t configuration, uint64_t now_ms, bool *known) {
    uint8_t told = 0;
    uint8_t status = warpteasel_raw_set_child_timeout(WARPTEASEL_NEIGHBORHOOD_(neighbors), nwk, timeout_ms, configuration, now_ms, &told);
    if (status == 0) *known = told != 0;
    return warpteasel_status_(status);
}

/* Takes out a child that has another parent now.
   eui64: an extended address, as warpteasel_eui64_from_bytes makes it. nwk: its network address, as a number; not found where it is no child.
   Refusals: 10. */
WARPTEASEL_MUST_USE static inline enum warpteasel_status warpteasel_take_child(
    struct warpteasel_neighbors *neighbors, uint64_t eui64, struct warpteasel_found_nwk *nwk) {
    uint8_t found = 0;
    uint8_t status = warpteasel_raw_take_child(
        WARPTEASEL_NEIGHBORS_(neighbors), &neighbors->count, WARPTEASEL_WAITING_(neighbors), neighbors->waiting, eui64, &found, &nwk->nwk);
    if (status == 0) nwk->found = found != 0;
    return warpteasel_status_(status);
}

/* Removes the end device children whose deadline has come.
   now_ms: the time. removed: those, in ascending order of extended address as a number; extended addresses as warpteasel_eui64_from_bytes makes
   them, network addresses as numbers.
   Refusals: 10. */
WARPTEASEL_MUST_USE static inline enum warpteasel_status warpteasel_evict_timed_out_children(
    struct warpteasel_neighbors *neighbors, uint64_t now_ms, struct warpteasel_child_list *removed) {
    size_t count = 0;
    uint64_t eui64s[WARPTEASEL_MAX_NEIGHBORS];
    uint16_t nwks[WARPTEASEL_MAX_NEIGHBORS];
    uint8_t status = warpteasel_raw_evict_timed_out_children(
        WARPTEASEL_NEIGHBORS_(neighbors), &neighbors->count, WARPTEASEL_WAITING_(neighbors), neighbors->waiting, now_ms, &count, eui64s,
        WARPTEASEL_MAX_NEIGHBORS, nwks, WARPTEASEL_MAX_NEIGHBORS);
    if (status == 0) warpteasel_join_(removed, count, eui64s, nwks);
    return warpteasel_status_(status);
}

/* Another router claims end devices: those that are end devices among our neighbors are removed.
   claims: `count` extended addresses, as warpteasel_eui64_from_bytes makes them; NULL where count is 0. They must not lie in the state.
   removed: those, in the order of the claims; network addresses are numbers.
   Refusals: 10, 8 (above WARPTEASEL_MAX_ANNOUNCED); WARPTEASEL_NO_CALL for claims that are NULL where count is not 0. */
WARPTEASEL_MUST_USE static inline enum warpteasel_status warpteasel_remove_claimed_children(
    struct warpteasel_neighbors *neighbors, const uint64_t *claims, size_t count, struct warpteasel_child_list *removed) {
    size_t total = 0;
    uint64_t eui64s[WARPTEASEL_MAX_NEIGHBORS];
    uint16_t nwks[WARPTEASEL_MAX_NEIGHBORS];
    uint8_t status;
    if (claims == NULL && count != 0) return WARPTEASEL_NO_CALL;
    status = warpteasel_raw_remove_claimed_children(
        WARPTEASEL_NEIGHBORS_(neighbors), &neighbors->count, WARPTEASEL_WAITING_(neighbors), neighbors->waiting, warpteasel_eui64s_(claims),
        warpteasel_shown_(count, WARPTEASEL_MAX_ANNOUNCED), &total, eui64s, WARPTEASEL_MAX_NEIGHBORS, nwks, WARPTEASEL_MAX_NEIGHBORS);
    if (status == 0) warpteasel_join_(removed, total, eui64s, nwks);
    return warpteasel_status_(status);
}

/* Another router announces end devices as its children. Of those that are end devices among our neighbors, the ones that sent us a keepalive are to
   be claimed back, and the others are removed.
   announced: `count` extended addresses, as warpteasel_eui64_from_bytes makes them; NULL where count is 0. They must not lie in the state.
   answer: both lists, in the order of the announcement; network addresses are numbers.
   Refusals: 10, 8 (above WARPTEASEL_MAX_ANNOUNCED); WARPTEASEL_NO_CALL for announced that is NULL where count is not 0. */
WARPTEASEL_MUST_USE static inline enum warpteasel_status warpteasel_process_parent_annce(
    struct warpteasel_neighbors *neighbors, const uint64_t *announced, size_t count, struct warpteasel_parent_annce_answer *answer) {
    size_t total = 0;
    uint64_t eui64s[WARPTEASEL_MAX_NEIGHBORS];
    uint16_t nwks[WARPTEASEL_MAX_NEIGHBORS];
    uint8_t status;
    if (announced == NULL && count != 0) return WARPTEASEL_NO_CALL;
    status = warpteasel_raw_process_parent_annce(
        WARPTEASEL_NEIGHBORS_(neighbors), &neighbors->count, WARPTEASEL_WAITING_(neighbors), neighbors->waiting, warpteasel_eui64s_(announced),
        warpteasel_shown_(count, WARPTEASEL_MAX_ANNOUNCED), &answer->claimed.count, answer->claimed.eui64s, WARPTEASEL_MAX_NEIGHBORS, &total,
        eui64s, WARPTEASEL_MAX_NEIGHBORS, nwks, WARPTEASEL_MAX_NEIGHBORS);
    if (status == 0) warpteasel_join_(&answer->removed, total, eui64s, nwks);
    return warpteasel_status_(status);
}

/* ---- The decision ---- */

/* The next hop of a unicast that we send, by a policy. In this order: direct mode; a command of the host; an end device child; a concentrator's
   route record; an Active route; a hint of the host; else a search, or none if the header forbids it. A source route is written into the header.
   policy: max_source_route is a count of relays. send: `hop` and `relays` are network addresses, as numbers; `relays` must not lie in the header.
   header: destination is read; frame_control.discover_route, frame_control.source_route, has_source_route and source_route are read, and written
   where the frame gets a source route. decision: next_hop is a network address, as a number.
   Refusals: 10, 9, 8 (relays that count, or a header's source route, above WARPTEASEL_MAX_RELAYS), 6, 7; WARPTEASEL_NO_CALL for a mode or a
   discover_route that is none, or relays that are NULL where their count is not 0. */
WARPTEASEL_MUST_USE static inline enum warpteasel_status warpteasel_resolve(
    const struct warpteasel_routing *routing, const struct warpteasel_relay_store *store, const struct warpteasel_neighbors *neighbors,
    const struct warpteasel_policy *policy, const struct warpteasel_send *send, struct warpteasel_header *header,
    struct warpteasel_decision *decision) {
    uint8_t discover_route = warpteasel_number_((unsigned)header->frame_control.discover_route);
    uint8_t source_route = warpteasel_flag_(header->frame_control.source_route);
    uint8_t has_source_route = warpteasel_flag_(header->has_source_route);
    uint8_t kind = 0, status;
    if (send->relays == NULL && send->count != 0) return WARPTEASEL_NO_CALL;
    status = warpteasel_raw_resolve(
        WARPTEASEL_ROUTING_(routing), WARPTEASEL_STORE_(store), WARPTEASEL_NEIGHBORHOOD_(neighbors), warpteasel_flag_(policy->is_concentrator),
        warpteasel_flag_(policy->force_route_discovery), policy->max_source_route, warpteasel_number_((unsigned)send->mode), send->hop,
        warpteasel_nwks_(send->relays), warpteasel_shown_(send->count, WARPTEASEL_MAX_RELAYS), header->destination, &discover_route, &source_route,
        &has_source_route, &header->source_route.relay_index, &header->source_route.count, header->source_route.relays, WARPTEASEL_MAX_RELAYS, &kind,
        &decision->next_hop);
    if (status == 0) {
        warpteasel_rewrite_(header, discover_route, source_route, has_source_route);
        decision->kind = (enum warpteasel_decision_kind)kind;
    }
    return warpteasel_status_(status);
}

/* The next hop of a unicast that we send, by the default policy: a concentrator, no forced discovery, the limit 12.
   send, header, decision: as for warpteasel_resolve.
   Refusals: as of warpteasel_resolve. */
WARPTEASEL_MUST_USE static inline enum warpteasel_status warpteasel_resolve_default(
    const struct warpteasel_routing *routing, const struct warpteasel_relay_store *store, const struct warpteasel_neighbors *neighbors,
    const struct warpteasel_send *send, struct warpteasel_header *header, struct warpteasel_decision *decision) {
    uint8_t discover_route = warpteasel_number_((unsigned)header->frame_control.discover_route);
    uint8_t source_route = warpteasel_flag_(header->frame_control.source_route);
    uint8_t has_source_route = warpteasel_flag_(header->has_source_route);
    uint8_t kind = 0, status;
    if (send->relays == NULL && send->count != 0) return WARPTEASEL_NO_CALL;
    status = warpteasel_raw_resolve_default(
        WARPTEASEL_ROUTING_(routing), WARPTEASEL_STORE_(store), WARPTEASEL_NEIGHBORHOOD_(neighbors), warpteasel_number_((unsigned)send->mode),
        send->hop, warpteasel_nwks_(send->relays), warpteasel_shown_(send->count, WARPTEASEL_MAX_RELAYS), header->destination, &discover_route,
        &source_route, &has_source_route, &header->source_route.relay_index, &header->source_route.count, header->source_route.relays,
        WARPTEASEL_MAX_RELAYS, &kind, &decision->next_hop);
    if (status == 0) {
        warpteasel_rewrite_(header, discover_route, source_route, has_source_route);
        decision->kind = (enum warpteasel_decision_kind)kind;
    }
    return warpteasel_status_(status);
}

/* Before a frame is relayed: its end device initiator bit is cleared where an end device child of ours sent it.
   header: source is read, and so are has_source_route and source_route.count; frame_control.end_device_initiator is read and written.
   cleared: whether the bit was cleared.
   Refusals: 10, 8 (a header's source route above WARPTEASEL_MAX_RELAYS). */
WARPTEASEL_MUST_USE static inline enum warpteasel_status warpteasel_clear_end_device_initiator_for_relay(
    const struct warpteasel_neighbors *neighbors, struct warpteasel_header *header, bool *cleared) {
    uint8_t initiator = warpteasel_flag_(header->frame_control.end_device_initiator);
    uint8_t told = 0;
    uint8_t status = warpteasel_raw_clear_end_device_initiator_for_relay(
        WARPTEASEL_NEIGHBORHOOD_(neighbors), header->source, warpteasel_flag_(header->has_source_route), header->source_route.count, &initiator,
        &told);
    if (status == 0) {
        header->frame_control.end_device_initiator = initiator != 0;
        *cleared = told != 0;
    }
    return warpteasel_status_(status);
}

#undef WARPTEASEL_ROUTES_
#undef WARPTEASEL_DISCOVERIES_
#undef WARPTEASEL_RECORDS_
#undef WARPTEASEL_NEIGHBORS_
#undef WARPTEASEL_WAITING_
#undef WARPTEASEL_STORE_
#undef WARPTEASEL_ROUTING_
#undef WARPTEASEL_NEIGHBORHOOD_

#endif
