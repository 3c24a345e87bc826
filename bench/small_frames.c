/* Sends frames of 60 bytes (64 with the checksum that the wire adds), UDP of IPv4, as fast as it can:

   ./small_frames DEVICE SECONDS FLOWS

   and writes how many it sent a second. They are from 10.9.0.1 to port 53 of 10.9.0.2, with a source port for each flow, and
   to an Ethernet address that the device at the other end hasn't, whose system drops them at once. */
#define _GNU_SOURCE
#include <arpa/inet.h>
#include <linux/if_packet.h>
#include <net/if.h>
#include <stdint.h>
#include <stdio.h>
#include <stdlib.h>
#include <string.h>
#include <sys/socket.h>
#include <time.h>

enum { BURST = 256, FRAME_BYTES = 60, PORT_PLACE = 34, IP_PLACE = 14, SUM_PLACE = 24, IP_BYTES = 20 };

static const uint8_t HEADERS[] = {
    2, 0, 0, 0, 0, 9, 2, 0, 0, 0, 0, 1, 8, 0,                                   /* Ethernet */
    0x45, 0, 0, 46, 0, 0, 0, 0, 64, 17, 0, 0, 10, 9, 0, 1, 10, 9, 0, 2,         /* IPv4 */
    0, 0, 0, 53, 0, 26, 0, 0,                                                   /* UDP */
};

static double now(void) {
    struct timespec moment;
    clock_gettime(CLOCK_MONOTONIC, &moment);
    return (double)moment.tv_sec + (double)moment.tv_nsec * 1e-9;
}

static void make_frame(uint8_t *frame) {
    uint32_t sum = 0;
    memcpy(frame, HEADERS, sizeof HEADERS);
    for (int i = 0; i < IP_BYTES; i += 2) sum += (uint32_t)frame[IP_PLACE + i] << 8 | frame[IP_PLACE + i + 1];
    uint16_t folded = htons((uint16_t)~((sum & 0xffff) + (sum >> 16)));
    memcpy(frame + SUM_PLACE, &folded, sizeof folded);
}

int main(int count, char **words) {
    static uint8_t frames[BURST][FRAME_BYTES];
    static struct iovec parts[BURST];
    static struct mmsghdr messages[BURST];
    if (count != 4) return 2;
    int it = socket(AF_PACKET, SOCK_RAW, 0), one = 1;
    struct sockaddr_ll address = {.sll_family = AF_PACKET, .sll_ifindex = (int)if_nametoindex(words[1])};
    if (it < 0 || bind(it, (struct sockaddr *)&address, sizeof address)) return 1;
    if (setsockopt(it, SOL_PACKET, PACKET_QDISC_BYPASS, &one, sizeof one)) return 1;
    for (int i = 0; i < BURST; i++) {
        make_frame(frames[i]);
        parts[i] = (struct iovec){frames[i], FRAME_BYTES};
        messages[i].msg_hdr = (struct msghdr){.msg_iov = &parts[i], .msg_iovlen = 1};
    }
    double begin = now(), end = begin + atof(words[2]), moment = begin;
    uint32_t flows = (uint32_t)atoi(words[3]), flow = 0;
    uint64_t total = 0;
    while (moment < end) {
        for (int i = 0; i < BURST; i++, flow = (flow + 1) % flows) {
            uint16_t port = htons((uint16_t)(1024 + flow));
            memcpy(frames[i] + PORT_PLACE, &port, sizeof port);
        }
        int sent = sendmmsg(it, messages, BURST, 0);
        total += sent > 0 ? (uint64_t)sent : 0;
        moment = now();
    }
    printf("%.0f\n", (double)total / (moment - begin));
    return 0;
}
