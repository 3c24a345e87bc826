/* The outer interface of a gateway: what goes out enters a session, and what comes in must belong to a live one. A capture
   of Ethernet frames (pcap, little-endian, microseconds) that have TCP or UDP over IPv4 is read from standard input; of
   each packet the verdict is written that `racl` gives with the policy of examples/outward.racl, which is

   mac 02:00:00:00:00:01
   out permit+reflect ipv4 any any

   cc -Iinclude -o outward examples/c/outward.c crates/bihash_c/out/libbihash_c.a KIT/c/liblibc_c.a -lpthread
   sed '1,/^hex$/d' examples/outward.racl | xxd -r -p | ./outward */
#include "bihash.h"
#include <stdio.h>
#include <string.h>

enum { TCP = 6, UDP = 17, FIN_SYN_RST_ACK = 0x17, SYN_ACK = 0x12 };
enum { TCP_ESTABLISHED = 86400, TCP_TRANSIENT = 120, UDP_TIMEOUT = 600 };
enum { MOST_BYTES = 262144 };
enum form { WHOLE, SHORT, MALFORMED, OTHER };

static const uint8_t OWN_MAC[6] = {2, 0, 0, 0, 0, 1};

/* `side` is 0 where the sender is the end that comes first. */
struct packet {
    bihash_key key;
    uint32_t second, side, flags;
    int is_outward, is_tcp;
};

static uint32_t big(const uint8_t *at, int bytes) {
    uint32_t number = 0;
    for (int i = 0; i < bytes; i++) number = number << 8 | at[i];
    return number;
}

static uint32_t little(const uint8_t *at) { return at[0] | at[1] << 8 | at[2] << 16 | (uint32_t)at[3] << 24; }

/* The key of a flow, the same for both directions: of its ends the lesser one first, by address and then by port. */
static void set_flow(struct packet *packet, uint64_t sender, uint64_t receiver, uint64_t protocol) {
    packet->side = sender > receiver;
    uint64_t first = packet->side ? receiver : sender, second = packet->side ? sender : receiver;
    packet->key.words[0] = first >> 16 << 32 | second >> 16;
    packet->key.words[1] = (first & 0xffff) << 48 | (second & 0xffff) << 32 | protocol << 24;
}

/* What a frame has, which is looked at as RFC 791 and the headers behind it say. */
static enum form read_frame(const uint8_t *frame, uint32_t length, struct packet *packet) {
    if (length < 14) return MALFORMED;
    if (big(frame + 12, 2) != 0x0800) return OTHER;
    const uint8_t *ip = frame + 14;
    length -= 14;
    if (length < 20 || ip[0] >> 4 != 4) return MALFORMED;
    uint32_t header = (ip[0] & 15) * 4u, total = big(ip + 2, 2);
    if (header < 20 || length < header || (total && total < header)) return MALFORMED;
    if (total && total < length) length = total;
    packet->is_tcp = ip[9] == TCP;
    if ((ip[9] != TCP && ip[9] != UDP) || big(ip + 6, 2) & 0x1fff) return OTHER;
    const uint8_t *transport = ip + header;
    if (length - header < (packet->is_tcp ? 14u : 4u)) return SHORT;
    packet->is_outward = !memcmp(frame + 6, OWN_MAC, 6);
    packet->flags = packet->is_tcp ? transport[13] & FIN_SYN_RST_ACK : 0;
    set_flow(packet, (uint64_t)big(ip + 12, 4) << 16 | big(transport, 2),
             (uint64_t)big(ip + 16, 4) << 16 | big(transport + 2, 2), ip[9]);
    return WHOLE;
}

/* A session's value: the second of its last packet in bits 0 to 31, the flags of both sides from bits 32 and 40 on, and
   bit 48 for TCP. */
static uint64_t live_until(uint64_t value) {
    int is_tcp = value >> 48 & 1, is_established = (value >> 32 & 0xffff) == (SYN_ACK << 8 | SYN_ACK);
    return (value & UINT32_MAX) + (!is_tcp ? UDP_TIMEOUT : is_established ? TCP_ESTABLISHED : TCP_TRANSIENT);
}

static uint64_t with_packet(uint64_t value, const struct packet *packet) {
    uint64_t last = value & UINT32_MAX;
    if (last < packet->second) value += packet->second - last;
    return value | (uint64_t)packet->flags << (32 + 8 * packet->side) | (uint64_t)packet->is_tcp << 48;
}

/* One thread judges here. Where several do, each flow is dealt to one of them, by bihash_bucket_of of its key, since
   a session is looked up and changed by two calls. */
static const char *judge(bihash_handle *caller, const struct packet *packet) {
    bihash_answer found = bihash_search_wait(caller, &packet->key);
    int is_live = found.kind == BIHASH_FOUND && packet->second <= live_until(found.value);
    if (!is_live && !packet->is_outward) {
        if (found.kind == BIHASH_FOUND) bihash_remove_wait(caller, &packet->key);
        return "drop default";
    }
    bihash_expiry expiry = bihash_expiry_at(packet->second, TCP_ESTABLISHED);
    uint64_t value = with_packet(is_live ? found.value : 0, packet);
    switch (bihash_add_or_recycle_wait(caller, &packet->key, value, &expiry).kind) {
    case BIHASH_FULL: return "drop full";
    case BIHASH_NO_PAGES: return "drop no-pages";
    case BIHASH_WORN:
    case BIHASH_WORN_FOUND: return "drop worn";
    default: return is_live ? "pass session" : "pass rule 1 reflect";
    }
}

static int judge_capture(bihash_handle *caller, FILE *capture) {
    static uint8_t frame[MOST_BYTES];
    uint8_t header[24], record[16];
    long packets = 0, passed = 0;
    if (fread(header, 1, sizeof header, capture) != sizeof header || little(header) != 0xa1b2c3d4) return 1;
    while (fread(record, 1, sizeof record, capture) == sizeof record) {
        uint32_t length = little(record + 8);
        struct packet packet = {.second = little(record)};
        if (length > MOST_BYTES || fread(frame, 1, length, capture) != length) return 1;
        enum form form = read_frame(frame, length, &packet);
        if (form == OTHER) return 1;
        const char *verdict = form == MALFORMED ? "drop malformed" : form == SHORT ? "drop short" : judge(caller, &packet);
        packets++;
        passed += verdict[0] == 'p';
        printf("%ld %s\n", packets, verdict);
    }
    printf("packets %ld pass %ld drop %ld\n", packets, passed, packets - passed);
    return 0;
}

int main(void) {
    bihash_options options = BIHASH_OPTIONS(2, BIHASH_LARGE);
    bihash_handle table;
    if (bihash_create(&table, &options) != BIHASH_DONE) return 1;
    int status = judge_capture(&table, stdin);
    if (status) fprintf(stderr, "not a whole capture of TCP and UDP over IPv4\n");
    bihash_free(&table);
    return status;
}
