// The header is C++ too: states by value, a search that is answered, and the helpers.
#include <cstdint>
#include <cstdio>
#include <cstring>
#include "../warpteasel.h"

int main() {
    warpteasel_routing routing;
    warpteasel_routing_init(&routing);

    std::uint8_t id = 0;
    if (warpteasel_begin_discovery(&routing, 0x0000, 0x7777, 1000, 10000, &id) != WARPTEASEL_OK || id != 1) return 1;

    warpteasel_route_reply reply = {};
    reply.originator = 0x0000;
    reply.request_id = id;
    reply.responder = 0x7777;
    reply.sender = 0x1a2b;
    reply.updated_path_cost = 3;
    warpteasel_route_reply_answer answer = {};
    if (warpteasel_accept_route_reply(&routing, 0x0000, &reply, &answer) != WARPTEASEL_OK) return 2;
    if (answer.disposition != WARPTEASEL_REPLY_ESTABLISHED || !answer.update.changed || answer.update.next_hop != 0x1a2b) return 3;

    const warpteasel_routing copy = routing; // a copy is a state of its own
    warpteasel_found_nwk hop = {};
    if (warpteasel_next_hop(&copy, 0x7777, &hop) != WARPTEASEL_OK || !hop.found || hop.nwk != 0x1a2b) return 4;

    routing.routes = 65;
    if (warpteasel_next_hop(&routing, 0x7777, &hop) != WARPTEASEL_STATE_ILL_FORMED || hop.nwk != 0x1a2b) return 5;

    // The bytes of addresses: over the air, and as they are printed.
    const std::uint8_t air[8] = {0x04, 0x03, 0x02, 0x01, 0x00, 0x4b, 0x12, 0x00};
    const std::uint64_t eui64 = warpteasel_eui64_from_bytes(air);
    std::uint8_t back[8];
    char text[WARPTEASEL_EUI64_TEXT];
    warpteasel_eui64_to_bytes(eui64, back);
    warpteasel_eui64_text(eui64, text);
    if (eui64 != 0x04030201004b1200 || std::memcmp(air, back, 8) != 0 || std::strcmp(text, "00:12:4b:00:01:02:03:04") != 0) return 6;
    if (warpteasel_eui64_to_printed(eui64) != 0x00124b0001020304 || warpteasel_eui64_from_printed(0x00124b0001020304) != eui64) return 7;
    std::uint8_t pair[2];
    warpteasel_nwk_to_bytes(0x1a2b, pair);
    if (pair[0] != 0x2b || pair[1] != 0x1a || warpteasel_nwk_from_bytes(pair) != 0x1a2b) return 8;

    std::puts("header: it is C++, and its calls work");
    return 0;
}
