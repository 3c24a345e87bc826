/* Lets through between two ports of DPDK what a policy lets through. It is an example, and isn't proved; what judges the frames
   is.

   ./filter WORDS-OF-DPDK -- [-l] [-c] POLICY

   What comes in at one port and passes goes out by the other. All is judged at interface 0, as on a capture of one wire, so
   the `mac` line says which frames go out; examples/c/bridge.c has two interfaces. Each core that DPDK is given has queues of
   its own at both ports, and a judge over the same tables. Ports that can are told to deal frames by a hash of addresses and
   ports that is the same for both directions (RSS), so that a flow's frames come to one core in their order; fragments go by
   addresses alone. Of a port that can't it is told: any judge may judge any flow. -l: large tables. -c: the ports are captures
   (net_pcap): seconds are those of the frames, and it ends when none has come for a second. Else seconds are those of the
   timer, and SIGINT or SIGTERM ends it. At the end the totals are written as `racl` writes them, and verdicts by their words.

   Frames are judged one by one: the other frames of a pool may be written to meanwhile, so a pool is no area of a burst. A
   frame of several parts is made one before, and dropped where its first part has no room for it. Ports are asked for no
   offload, so a VLAN tag stands in the frame, and checksums are as they came. Bridge.c shows ageing and policies that are
   replaced; here nothing looks at sessions that have ended but new ones of their bucket.

   cc -O2 -Iinclude $(pkg-config --cflags libdpdk) -o filter examples/dpdk/filter.c out/library/libracl.a \
      $(pkg-config --libs libdpdk)
   ./filter -l 0 --no-huge -m 256 --vdev net_pcap0,rx_pcap=IN,tx_pcap=OUT0 --vdev net_pcap1,rx_pcap=NONE,tx_pcap=OUT1 \
      -- -c POLICY */
#include "racl.h"
#include <rte_cycles.h>
#include <rte_eal.h>
#include <rte_ethdev.h>
#include <rte_lcore.h>
#include <rte_mbuf.h>
#include <rte_mbuf_dyn.h>
#include <rte_prefetch.h>
#include <signal.h>
#include <stdio.h>
#include <stdlib.h>
#include <string.h>
#include <unistd.h>

enum { PORTS = 2, BURST = 32, RING_FRAMES = 1024, POOL_FRAMES = 16383, POOL_CACHE = 256, MOST_POLICY = 1 << 24 };
enum { MICROSECONDS = 1000000 };
#define REPEATED 0x6d, 0x5a, 0x6d, 0x5a, 0x6d, 0x5a, 0x6d, 0x5a, 0x6d, 0x5a, 0x6d, 0x5a, 0x6d, 0x5a, 0x6d, 0x5a

/* A core's judge, the number of its queues, and how many frames came, passed, and found no room where they were to go out. */
struct worker {
    racl_handle judge;
    uint16_t queue;
    uint64_t came, passed, lost;
};

static struct worker workers[RTE_MAX_LCORE];
static int are_captures;
static volatile sig_atomic_t is_over;
/* Where a frame has its moment, and the bit that says that it has one. */
static int moment_place = -1;
static uint64_t moment_bit;

static void stop(int signal) {
    (void)signal;
    is_over = 1;
}

static uint32_t second_of(const struct rte_mbuf *frame, uint32_t now) {
    if (!are_captures || moment_place < 0 || !(frame->ol_flags & moment_bit)) return now;
    return (uint32_t)(*RTE_MBUF_DYNFIELD(frame, moment_place, const rte_mbuf_timestamp_t *) / MICROSECONDS);
}

/* Judges a burst. Frames that pass are moved to the front, and the others given back; how many pass. */
static uint16_t passing(struct worker *worker, struct rte_mbuf **frames, uint16_t count) {
    uint32_t now = (uint32_t)(rte_get_timer_cycles() / rte_get_timer_hz());
    uint16_t passed = 0;
    for (uint16_t i = 0; i < count; i++) rte_prefetch0(rte_pktmbuf_mtod(frames[i], const void *));
    for (uint16_t i = 0; i < count; i++) {
        struct rte_mbuf *frame = frames[i];
        int passes = 0;
        if (!rte_pktmbuf_linearize(frame)) {
            const uint8_t *bytes = rte_pktmbuf_mtod(frame, const uint8_t *);
            uint32_t second = second_of(frame, now);
            passes = (int)racl_judge_wait(&worker->judge, 0, second, bytes, rte_pktmbuf_data_len(frame)).passes;
        }
        if (passes) frames[passed++] = frame;
        else rte_pktmbuf_free(frame);
    }
    return passed;
}

/* Does what is to be done with the next burst at a port; how many frames it has. */
static uint16_t do_burst(struct worker *worker, uint16_t port) {
    struct rte_mbuf *frames[BURST];
    uint16_t came = rte_eth_rx_burst(port, worker->queue, frames, BURST);
    if (came == 0) return 0;
    uint16_t passed = passing(worker, frames, came);
    uint16_t sent = rte_eth_tx_burst((uint16_t)(1 - port), worker->queue, frames, passed);
    for (uint16_t i = sent; i < passed; i++) rte_pktmbuf_free(frames[i]);
    worker->came += came;
    worker->passed += passed;
    worker->lost += (uint64_t)(passed - sent);
    return came;
}

static int work(void *nothing) {
    struct worker *worker = &workers[rte_lcore_id()];
    uint64_t last = rte_get_timer_cycles();
    (void)nothing;
    while (!is_over) {
        uint16_t some = 0;
        for (uint16_t port = 0; port < PORTS; port++) some = (uint16_t)(some + do_burst(worker, port));
        if (!are_captures) continue;
        if (some) last = rte_get_timer_cycles();
        else if (rte_get_timer_cycles() - last > rte_get_timer_hz()) break;
    }
    return 0;
}

/* A key of the hash by which ports deal: since it is the same two bytes over and over, both directions have one hash. */
static const uint8_t symmetric[] = {REPEATED, REPEATED, REPEATED, REPEATED};

static void open_port(uint16_t port, uint16_t queues, struct rte_mempool *pool) {
    struct rte_eth_conf wanted;
    struct rte_eth_dev_info can;
    memset(&wanted, 0, sizeof wanted);
    int status = rte_eth_dev_info_get(port, &can);
    struct rte_eth_rss_conf *hash = &wanted.rx_adv_conf.rss_conf;
    if (!status && queues > 1) hash->rss_hf = can.flow_type_rss_offloads & (RTE_ETH_RSS_IP | RTE_ETH_RSS_TCP | RTE_ETH_RSS_UDP);
    if (hash->rss_hf) {
        wanted.rxmode.mq_mode = RTE_ETH_MQ_RX_RSS;
        hash->rss_key = (uint8_t *)(uintptr_t)symmetric;
        hash->rss_key_len = can.hash_key_size && can.hash_key_size <= sizeof symmetric ? can.hash_key_size : 40;
    }
    if (!status) status = rte_eth_dev_configure(port, queues, queues, &wanted);
    for (uint16_t i = 0; !status && i < queues; i++) {
        status = rte_eth_rx_queue_setup(port, i, RING_FRAMES, SOCKET_ID_ANY, NULL, pool);
        if (!status) status = rte_eth_tx_queue_setup(port, i, RING_FRAMES, SOCKET_ID_ANY, NULL);
    }
    if (!status) status = rte_eth_dev_start(port);
    if (status) rte_exit(EXIT_FAILURE, "filter: port %u: %s\n", port, rte_strerror(-status));
    rte_eth_promiscuous_enable(port);
    if (queues == 1) return;
    int deals = hash->rss_hf && !rte_eth_dev_rss_hash_update(port, hash);
    fprintf(stderr, deals ? "filter: port %u deals flows to %u queues\n" : "filter: port %u doesn't deal flows to its %u queues\n", port, queues);
}

static void make_judges(const char *name, const racl_options *options) {
    FILE *file = fopen(name, "rb");
    uint8_t *text = malloc(MOST_POLICY);
    if (!file || !text) rte_exit(EXIT_FAILURE, "filter: %s can't be read\n", name);
    size_t length = fread(text, 1, MOST_POLICY, file);
    fclose(file);
    struct worker *first = &workers[rte_get_main_lcore()];
    racl_made made = racl_new(&first->judge, text, length, options);
    free(text);
    if (made.kind != RACL_DONE)
        rte_exit(EXIT_FAILURE, "filter: %s: line %llu: %s\n", name, (unsigned long long)made.line, racl_kind_name(made.kind));
    unsigned core;
    uint16_t queue = 1;
    RTE_LCORE_FOREACH_WORKER(core) {
        workers[core].queue = queue++;
        if (racl_split_wait(&first->judge, &workers[core].judge) != RACL_DONE) rte_exit(EXIT_FAILURE, "filter: no memory\n");
    }
}

/* Takes all judges back into the first one, and writes what they counted. */
static void write_totals(void) {
    static const char *const words[] = {"session", "reflect", "permit", "deny", "default", "worn",
                                        "full", "no-pages", "not-ip", "malformed", "short"};
    struct worker *first = &workers[rte_get_main_lcore()];
    unsigned core;
    RTE_LCORE_FOREACH_WORKER(core) {
        racl_join(&first->judge, &workers[core].judge);
        first->came += workers[core].came;
        first->passed += workers[core].passed;
        first->lost += workers[core].lost;
    }
    racl_count counts;
    uint64_t numbers[sizeof counts / sizeof(uint64_t)];
    racl_counts(&first->judge, &counts);
    memcpy(numbers, &counts, sizeof numbers);
    racl_free(&first->judge);
    printf("packets %llu pass %llu drop %llu\n", (unsigned long long)first->came, (unsigned long long)first->passed,
           (unsigned long long)(first->came - first->passed));
    for (size_t i = 0; i < sizeof words / sizeof *words; i++)
        printf("%s packets %llu\n", words[i], (unsigned long long)numbers[i]);
    if (first->lost) fprintf(stderr, "filter: frames without room where they were to go out: %llu\n", (unsigned long long)first->lost);
}

int main(int count, char **words) {
    int taken = rte_eal_init(count, words);
    if (taken < 0) rte_exit(EXIT_FAILURE, "filter: %s\n", rte_strerror(rte_errno));
    racl_options options = RACL_OPTIONS;
    optind = 1;
    for (int option; (option = getopt(count - taken, words + taken, "lc")) != -1;) {
        if (option == 'l') options.tables = RACL_LARGE;
        else if (option == 'c') are_captures = 1;
        else return 2;
    }
    if (optind + 1 != count - taken) rte_exit(2, "filter: the words are: WORDS-OF-DPDK -- [-l] [-c] POLICY\n");
    if (rte_eth_dev_count_avail() != PORTS) rte_exit(2, "filter: two ports are wanted\n");
    signal(SIGINT, stop);
    signal(SIGTERM, stop);
    make_judges(words[taken + optind], &options);
    if (are_captures) rte_mbuf_dyn_rx_timestamp_register(&moment_place, &moment_bit);
    struct rte_mempool *pool = rte_pktmbuf_pool_create("frames", POOL_FRAMES, POOL_CACHE, 0, RTE_MBUF_DEFAULT_BUF_SIZE, SOCKET_ID_ANY);
    if (!pool) rte_exit(EXIT_FAILURE, "filter: no memory for frames\n");
    for (uint16_t port = 0; port < PORTS; port++) open_port(port, (uint16_t)rte_lcore_count(), pool);
    rte_eal_mp_remote_launch(work, NULL, CALL_MAIN);
    rte_eal_mp_wait_lcore();
    for (uint16_t port = 0; port < PORTS; port++) {
        rte_eth_dev_stop(port);
        rte_eth_dev_close(port);
    }
    write_totals();
    rte_eal_cleanup();
    return 0;
}
