/* A bridge between two devices that lets through what a policy lets through. It is an example, and isn't proved; what judges
   the frames is.

   ./bridge [-t THREADS] [-l] [-e SECONDS] [-n SECONDS] [-u SECONDS] POLICY [N=]DEVICE [N=]DEVICE

   N is the number of the interface at a device, 0 at the first and 1 at the second where none is named. A frame is judged at
   the interface where it comes in, and, if it passes and the other number is another one, also where it is to go out, as
   a router's frames are: then both sections of the policy have a rule for it. With one number for both (0=eth0 0=eth1) it is
   judged once, as on a capture of one wire: the `mac` line has the address of the router at one end, say. -l: large tables.
   -e, -n, -u: how long sessions live, of TCP that is established, other TCP, and all else. Seconds are CLOCK_MONOTONIC's.

   SIGHUP: the policy is read anew; sessions stay. Of a faulty one each wrong line is told, and the old one stays. SIGUSR1:
   counters on standard error. SIGINT, SIGTERM: the end, with the counters. It needs CAP_NET_RAW, and devices that are up and
   have no addresses of their own (sysctl net.ipv6.conf.DEVICE.disable_ipv6=1), so that nobody else answers there. A device
   that goes down and comes up again goes on. One that is removed is told, and opened again within a second once a device of its
   name is up; sessions stay.

   Each of -t threads (1) has a judge over the same tables, and of each device a socket whose ring the kernel fills. Frames
   are dealt to sockets by the kernel's hash of addresses and ports (PACKET_FANOUT_HASH), which is the same for both
   directions; fragments go by addresses alone. No verdict depends on it: any judge may judge any flow, and an answer comes
   when what it answers was let through. It keeps the order of a flow's frames in each direction, but not between fragments
   and whole frames of it. One thread more takes sessions away that have ended, of a part of the buckets each second.

   - The kernel hands over a block of frames when it is full, or after a millisecond or two, by which the bridge is slower
     than a wire. A block is nobody else's until it is given back, so it is the area of a burst; frames go out from it.
   - Frames come with what the kernel knows of them (PACKET_VNET_HDR), and go out with it: a checksum that is still to be made,
     or a frame of up to 64 KiB that is still to be cut. Such frames are judged once. Neither needs to be switched off;
     segments of other protocols than TCP and UDP are dropped by the kernel, and count as missed.
   - The kernel takes a frame's outer VLAN tag out. It is put back before the frame is judged.
   - Rules and sessions don't know a frame's VLAN: a session that was entered in one lets its frames through in each other one.
     A bridge for each VLAN, between devices of that VLAN (eth0.5 and eth1.5), keeps them apart.
   - What this host sends by the devices isn't judged (PACKET_IGNORE_OUTGOING), the bridge's own frames among it. They pass by
     queues of tc, and tcpdump on the device doesn't see them (PACKET_QDISC_BYPASS): where a device is busy they are lost.
   - Frames that are longer than the other device's packets may be are lost: the devices are to have the same MTU.

   make library && cc -O2 -Iinclude -o bridge examples/c/bridge.c out/library/libracl.a -lpthread */
#define _GNU_SOURCE
#include "racl.h"
#include <arpa/inet.h>
#include <errno.h>
#include <linux/filter.h>
#include <linux/if_ether.h>
#include <linux/if_packet.h>
#include <linux/virtio_net.h>
#include <net/if.h>
#include <poll.h>
#include <pthread.h>
#include <signal.h>
#include <stdatomic.h>
#include <stdbool.h>
#include <stdio.h>
#include <stdlib.h>
#include <string.h>
#include <sys/ioctl.h>
#include <sys/mman.h>
#include <sys/socket.h>
#include <time.h>
#include <unistd.h>

enum {
    SIDES = 2,
    MOST_THREADS = 16,
    MOST_BURST = 256,
    MOST_POLICY = 1 << 24,
    BLOCK_BYTES = 1 << 18, /* more than the longest frame, which is one of 64 KiB that is still to be cut */
    BLOCKS = 32,
    FRAME_ROOM = 1 << 11, /* no frame's: the kernel wants some size that blocks are a multiple of */
    BLOCK_MILLISECONDS = 1,
    ADDRESS_BYTES = 2 * ETH_ALEN,
    TAG_BYTES = 4,
    HEADROOM = 16,
    LOOK_MILLISECONDS = 100, /* how often a thread without frames looks for what it is told */
    SWEEP_SECONDS = 16       /* how long a round of all buckets takes */
};

/* What became of frames that came in at a device: those that the kernel had no room for, and of the others those that are
   longer than a block has room for, that went out, and that the other device refused. */
enum { CAME, MISSED, CUT, SENT, REFUSED, TOTALS };
static const char *const TOTAL_WORDS[] = {"came", "missed", "cut", "sent", "refused"};

/* The fields of racl_count, each 64 bits, by the words of `racl`. */
static const char *const COUNT_WORDS[] = {"session", "reflect", "permit", "deny", "default", "worn",
                                          "full", "no-pages", "not-ip", "malformed", "short"};
enum { COUNTS = sizeof COUNT_WORDS / sizeof *COUNT_WORDS };
_Static_assert(sizeof(racl_count) == COUNTS * sizeof(uint64_t), "a word for each count");

/* A thread's socket at a device, and its ring. */
struct port {
    int socket;
    uint32_t next;
    uint8_t *ring;
};

struct worker {
    racl_handle judge;
    pthread_t thread;
    struct port ports[SIDES];
    struct port fresh[SIDES]; /* what it is to have instead, under the lock; without a ring: nothing */
    uint64_t totals[SIDES][TOTALS];
    uint32_t policies, questions;
    /* what it answered last, under the lock */
    uint64_t told_totals[SIDES][TOTALS], told_counts[COUNTS];
};

static struct side {
    const char *device;
    uint8_t interface;
    bool is_lost; /* it was removed, and isn't opened again yet */
} sides[SIDES] = {{NULL, 0, false}, {NULL, 1, false}};
static struct worker workers[MOST_THREADS];
static uint32_t threads = 1;
static racl_options options = RACL_OPTIONS;

/* What threads are told: how often the policy was replaced, how often they were asked for counters, and that it is over. The
   judge with the policy, and the number of threads that answered, are looked at under the lock. */
static atomic_uint policies, questions;
static atomic_bool is_over;
static pthread_mutex_t lock = PTHREAD_MUTEX_INITIALIZER;
static pthread_cond_t answered = PTHREAD_COND_INITIALIZER;
static racl_handle keeper;
static uint32_t answers_left;

/* Says what failed. */
static bool is_done(int is_so, const char *what, const char *name) {
    if (!is_so) fprintf(stderr, "bridge: %s: %s: %s\n", name, what, strerror(errno));
    return is_so;
}

/* Ends the program where something failed. */
static void must(int is_so, const char *what, const char *name) {
    if (!is_done(is_so, what, name)) exit(1);
}

static uint32_t now(void) {
    struct timespec moment;
    clock_gettime(CLOCK_MONOTONIC, &moment);
    return (uint32_t)moment.tv_sec;
}

/* ---- Frames ---- */

/* A descriptor of the frame at a header in a block. The tag that the kernel took out is put back, which moves the addresses,
   and what the kernel knows of the frame before them, into the room before. */
static racl_descriptor framed(uint8_t *block, struct tpacket3_hdr *header) {
    uint8_t *frame = (uint8_t *)header + header->tp_mac;
    uint32_t length = header->tp_snaplen;
    if (header->tp_status & TP_STATUS_VLAN_VALID && length >= ADDRESS_BYTES) {
        struct virtio_net_hdr known;
        memcpy(&known, frame - sizeof known, sizeof known);
        if (known.flags & VIRTIO_NET_HDR_F_NEEDS_CSUM) known.csum_start = (uint16_t)(known.csum_start + TAG_BYTES);
        if (known.hdr_len) known.hdr_len = (uint16_t)(known.hdr_len + TAG_BYTES);
        memmove(frame - TAG_BYTES, frame, ADDRESS_BYTES);
        frame -= TAG_BYTES;
        length += TAG_BYTES;
        memcpy(frame - sizeof known, &known, sizeof known);
        uint16_t kind = header->tp_status & TP_STATUS_VLAN_TPID_VALID ? header->hv1.tp_vlan_tpid : ETH_P_8021Q;
        uint16_t tag[] = {htons(kind), htons((uint16_t)header->hv1.tp_vlan_tci)};
        memcpy(frame + ADDRESS_BYTES, tag, sizeof tag);
    }
    return (racl_descriptor){.at = (uint64_t)(frame - block), .length = length};
}

/* Judges frames of a block at an interface. Those that pass are moved to the front; how many there are. */
static uint32_t passing(racl_handle *judge, uint8_t interface, const uint8_t *block, racl_descriptor *frames, uint32_t count) {
    racl_answer answers[MOST_BURST];
    uint32_t second = now(), passed = 0;
    for (uint32_t i = 0; i < count; i++) {
        frames[i].second = second;
        frames[i].interface_number = interface;
    }
    racl_judge_burst_wait(judge, block, BLOCK_BYTES, frames, count, answers);
    for (uint32_t i = 0; i < count; i++)
        if (answers[i].passes) frames[passed++] = frames[i];
    return passed;
}

/* Sends frames out of a block, each behind what the kernel knows of it. What the device refuses is lost. */
static void send_frames(int socket, uint64_t *totals, uint8_t *block, const racl_descriptor *frames, uint32_t count) {
    static _Thread_local struct mmsghdr messages[MOST_BURST];
    static _Thread_local struct iovec parts[MOST_BURST];
    const size_t known = sizeof(struct virtio_net_hdr);
    for (uint32_t i = 0; i < count; i++) {
        parts[i] = (struct iovec){block + frames[i].at - known, frames[i].length + known};
        messages[i].msg_hdr = (struct msghdr){.msg_iov = &parts[i], .msg_iovlen = 1};
    }
    for (uint32_t done = 0; done < count;) {
        int told = sendmmsg(socket, messages + done, count - done, 0);
        if (told < 0 && errno == EINTR) continue;
        uint32_t sent = told > 0 ? (uint32_t)told : 0, lost = sent ? 0 : errno == EAGAIN ? count - done : 1;
        totals[SENT] += sent;
        totals[REFUSED] += lost;
        done += sent + lost;
    }
}

static void judge_and_send(struct worker *worker, uint32_t side, uint8_t *block, racl_descriptor *frames, uint32_t count) {
    uint32_t other = 1 - side;
    count = passing(&worker->judge, sides[side].interface, block, frames, count);
    if (sides[other].interface != sides[side].interface)
        count = passing(&worker->judge, sides[other].interface, block, frames, count);
    send_frames(worker->ports[other].socket, worker->totals[side], block, frames, count);
}

/* Does what is to be done with the next block of a ring, where there is one. */
static int do_block(struct worker *worker, uint32_t side) {
    struct port *port = &worker->ports[side];
    uint8_t *block = port->ring + (size_t)port->next * BLOCK_BYTES;
    struct tpacket_hdr_v1 *head = &((struct tpacket_block_desc *)block)->hdr.bh1;
    if (!(__atomic_load_n(&head->block_status, __ATOMIC_ACQUIRE) & TP_STATUS_USER)) return 0;
    racl_descriptor frames[MOST_BURST];
    uint32_t count = 0, left = head->num_pkts;
    for (uint8_t *at = block + head->offset_to_first_pkt; left > 0; left--) {
        struct tpacket3_hdr *header = (struct tpacket3_hdr *)at;
        at += header->tp_next_offset;
        if (header->tp_snaplen < header->tp_len) worker->totals[side][CUT]++;
        else frames[count++] = framed(block, header);
        if (count < MOST_BURST && left > 1) continue;
        judge_and_send(worker, side, block, frames, count);
        count = 0;
    }
    worker->totals[side][CAME] += head->num_pkts;
    __atomic_store_n(&head->block_status, TP_STATUS_KERNEL, __ATOMIC_RELEASE);
    port->next = (port->next + 1) % BLOCKS;
    return 1;
}

/* ---- Threads ---- */

/* Tells the thread's counters. How many frames it had no room for the kernel says since it was asked last. */
static void answer(struct worker *worker) {
    for (uint32_t side = 0; side < SIDES; side++) {
        struct tpacket_stats_v3 told;
        socklen_t length = sizeof told;
        if (!getsockopt(worker->ports[side].socket, SOL_PACKET, PACKET_STATISTICS, &told, &length))
            worker->totals[side][MISSED] += told.tp_drops;
    }
    racl_count counts;
    racl_counts(&worker->judge, &counts);
    memcpy(worker->told_counts, &counts, sizeof worker->told_counts);
    memcpy(worker->told_totals, worker->totals, sizeof worker->totals);
}

static void close_port(struct port *port) {
    if (port->ring) munmap(port->ring, (size_t)BLOCK_BYTES * BLOCKS);
    close(port->socket);
    *port = (struct port){0};
}

/* Takes the new socket at a device in the place of that at a device that was removed. */
static void take_fresh(struct worker *worker, uint32_t side) {
    if (!worker->fresh[side].ring) return;
    if (worker->ports[side].ring) close_port(&worker->ports[side]);
    worker->ports[side] = worker->fresh[side];
    worker->fresh[side] = (struct port){0};
}

/* Does what the thread was told since it looked last. */
static void follow(struct worker *worker) {
    uint32_t question = atomic_load(&questions);
    if (worker->questions == question) return;
    pthread_mutex_lock(&lock);
    uint32_t policy = atomic_load(&policies);
    if (worker->policies != policy) {
        if (racl_take_policy(&worker->judge, &keeper) == RACL_DONE) worker->policies = policy;
        else fprintf(stderr, "bridge: a thread keeps the old policy: no memory\n");
    }
    answer(worker);
    for (uint32_t side = 0; side < SIDES; side++) take_fresh(worker, side);
    worker->questions = question;
    answers_left--;
    pthread_cond_signal(&answered);
    pthread_mutex_unlock(&lock);
}

static void wait_for_frames(struct worker *worker) {
    struct pollfd files[SIDES];
    for (uint32_t side = 0; side < SIDES; side++)
        files[side] = (struct pollfd){.fd = worker->ports[side].socket, .events = POLLIN};
    if (poll(files, SIDES, LOOK_MILLISECONDS) <= 0) return;
    /* a device that went down or was removed says so once; the socket of one that went down goes on when it is up again */
    for (uint32_t side = 0; side < SIDES; side++) {
        int error;
        socklen_t length = sizeof error;
        if (files[side].revents & POLLERR) getsockopt(files[side].fd, SOL_SOCKET, SO_ERROR, &error, &length);
    }
}

static void *work(void *given) {
    struct worker *worker = given;
    while (!atomic_load(&is_over)) {
        follow(worker);
        int first = do_block(worker, 0), second = do_block(worker, 1);
        if (!first && !second) wait_for_frames(worker);
    }
    return NULL;
}

/* Asks all threads to follow and to answer, and waits for it: none is longer at a block than some seconds. */
static void ask(void) {
    pthread_mutex_lock(&lock);
    answers_left = threads;
    atomic_fetch_add(&questions, 1);
    while (answers_left > 0) pthread_cond_wait(&answered, &lock);
    pthread_mutex_unlock(&lock);
}

/* ---- What is told ---- */

static void write_number(const char *word, uint64_t number) {
    fprintf(stderr, " %s %llu", word, (unsigned long long)number);
}

/* Writes the sums of what all threads told. */
static void write_counters(uint64_t went) {
    pthread_mutex_lock(&lock);
    for (uint32_t side = 0; side < SIDES; side++) {
        fprintf(stderr, "bridge: from %s", sides[side].device);
        for (uint32_t k = 0; k < TOTALS; k++) {
            uint64_t sum = 0;
            for (uint32_t i = 0; i < threads; i++) sum += workers[i].told_totals[side][k];
            write_number(TOTAL_WORDS[k], sum);
        }
        fprintf(stderr, "\n");
    }
    fprintf(stderr, "bridge: judged");
    for (uint32_t k = 0; k < COUNTS; k++) {
        uint64_t sum = 0;
        for (uint32_t i = 0; i < threads; i++) sum += workers[i].told_counts[k];
        write_number(COUNT_WORDS[k], sum);
    }
    pthread_mutex_unlock(&lock);
    write_number("ended", went);
    fprintf(stderr, "\n");
}

/* ---- The policy ---- */

/* What a file has, of which the caller lets go. Nothing where it can't be read. */
static uint8_t *contents(const char *name, size_t *length) {
    FILE *file = fopen(name, "rb");
    uint8_t *text = file ? malloc(MOST_POLICY + 1) : NULL;
    *length = text ? fread(text, 1, MOST_POLICY + 1, file) : 0;
    int is_read = text && !ferror(file) && *length <= MOST_POLICY;
    if (file) fclose(file);
    if (is_read) return text;
    free(text);
    return NULL;
}

/* Says what is wrong with a policy: each wrong line, with the word and the reason, as `racl check` does. */
static void write_faults(const char *name, racl_made made, const uint8_t *text, size_t length) {
    uint8_t none;
    racl_checked checked = racl_check(text, length, &none, 0);
    char *lines = checked.kind == RACL_BAD_LINE ? malloc(checked.length + 1) : NULL;
    if (lines) {
        checked = racl_check(text, length, (uint8_t *)lines, checked.length);
        lines[checked.length] = 0;
    }
    if (!lines || checked.kind != RACL_BAD_LINE)
        fprintf(stderr, "bridge: %s: line %llu: %s\n", name, (unsigned long long)made.line, racl_kind_name(made.kind));
    else
        for (char *rest = lines, *line; (line = strtok_r(rest, "\n", &rest));) fprintf(stderr, "bridge: %s: %s\n", name, line);
    free(lines);
}

static void read_anew(const char *name) {
    size_t length;
    uint8_t *text = contents(name, &length);
    if (!text) {
        fprintf(stderr, "bridge: %s can't be read; the policy stays\n", name);
        return;
    }
    pthread_mutex_lock(&lock);
    racl_made made = racl_set_policy(&keeper, text, length);
    if (made.kind == RACL_DONE) atomic_fetch_add(&policies, 1);
    pthread_mutex_unlock(&lock);
    if (made.kind != RACL_DONE) write_faults(name, made, text, length);
    else ask();
    free(text);
    fprintf(stderr, "bridge: the policy %s\n", made.kind == RACL_DONE ? "was read anew" : "stays");
}

/* ---- Beginning and end ---- */

static bool is_set(int socket, int option, int value, const char *device) {
    return is_done(!setsockopt(socket, SOL_PACKET, option, &value, sizeof value), "an option of its socket", device);
}

/* Makes a socket one at a device, with its ring. Until it is let, nothing comes, lest a frame come to two sockets while the next one
   isn't in its group yet. */
static bool is_set_up(struct port *port, uint32_t side, int group) {
    static struct sock_filter refuse_all = BPF_STMT(BPF_RET | BPF_K, 0);
    const struct sock_fprog filter = {.len = 1, .filter = &refuse_all};
    const char *device = sides[side].device;
    const int it = port->socket;
    unsigned index = if_nametoindex(device);
    if (!is_done(index != 0, "the device", device)) return false;
    if (!is_set(it, PACKET_VERSION, TPACKET_V3, device) || !is_set(it, PACKET_RESERVE, HEADROOM, device) ||
        !is_set(it, PACKET_VNET_HDR, 1, device) || !is_set(it, PACKET_IGNORE_OUTGOING, 1, device) ||
        !is_set(it, PACKET_QDISC_BYPASS, 1, device))
        return false;
    if (!is_done(!setsockopt(it, SOL_SOCKET, SO_ATTACH_FILTER, &filter, sizeof filter), "a filter", device)) return false;
    struct timeval second = {.tv_sec = 1};
    if (!is_done(!setsockopt(it, SOL_SOCKET, SO_SNDTIMEO, &second, sizeof second), "a timeout", device)) return false;
    struct tpacket_req3 wanted = {.tp_block_size = BLOCK_BYTES, .tp_block_nr = BLOCKS, .tp_frame_size = FRAME_ROOM,
                                  .tp_frame_nr = BLOCK_BYTES / FRAME_ROOM * BLOCKS, .tp_retire_blk_tov = BLOCK_MILLISECONDS};
    if (!is_done(!setsockopt(it, SOL_PACKET, PACKET_RX_RING, &wanted, sizeof wanted), "a ring", device)) return false;
    void *ring = mmap(NULL, (size_t)BLOCK_BYTES * BLOCKS, PROT_READ | PROT_WRITE, MAP_SHARED, it, 0);
    if (!is_done(ring != MAP_FAILED, "a ring", device)) return false;
    port->ring = ring;
    struct sockaddr_ll address = {.sll_family = AF_PACKET, .sll_protocol = htons(ETH_P_ALL), .sll_ifindex = (int)index};
    if (!is_done(!bind(it, (struct sockaddr *)&address, sizeof address), "binding", device)) return false;
    struct packet_mreq all = {.mr_ifindex = (int)index, .mr_type = PACKET_MR_PROMISC};
    if (!is_done(!setsockopt(it, SOL_PACKET, PACKET_ADD_MEMBERSHIP, &all, sizeof all), "all frames", device)) return false;
    return threads == 1 || is_set(it, PACKET_FANOUT, group | PACKET_FANOUT_HASH << 16, device);
}

/* Makes a socket at a device for each thread, all or none. They are one group of the kernel's, which has the device once only. */
static bool are_opened(uint32_t side) {
    static uint32_t groups;
    int group = (int)(((uint32_t)getpid() << 4 | groups++ % 16) & 0xffff);
    bool are_done = true;
    uint32_t made = 0;
    for (; made < threads && are_done; made++) {
        struct port *port = &workers[made].fresh[side];
        *port = (struct port){.socket = socket(AF_PACKET, SOCK_RAW | SOCK_CLOEXEC, 0)};
        are_done = is_done(port->socket >= 0, "a socket", sides[side].device) && is_set_up(port, side, group);
    }
    while (!are_done && made > 0) close_port(&workers[--made].fresh[side]);
    return are_done;
}

/* Lets frames come to all sockets at a device. */
static void let_frames(uint32_t side) {
    const int nothing = 0;
    for (uint32_t i = 0; i < threads; i++)
        must(!setsockopt(workers[i].ports[side].socket, SOL_SOCKET, SO_DETACH_FILTER, &nothing, sizeof nothing), "a filter",
             sides[side].device);
}

static void open_ports(void) {
    for (uint32_t side = 0; side < SIDES; side++) {
        if (!are_opened(side)) exit(1);
        for (uint32_t i = 0; i < threads; i++) take_fresh(&workers[i], side);
    }
    for (uint32_t side = 0; side < SIDES; side++) let_frames(side);
}

/* Whether a device of this name is there and up. */
static bool is_up(int socket, const char *device) {
    struct ifreq asked = {0};
    strncpy(asked.ifr_name, device, IFNAMSIZ - 1);
    return !ioctl(socket, SIOCGIFFLAGS, &asked) && asked.ifr_flags & IFF_UP;
}

/* Looks whether a device was removed, of which its sockets know, and opens it again once one of its name is up. */
static void look_at_device(uint32_t side) {
    const int it = workers[0].ports[side].socket;
    const char *device = sides[side].device;
    struct sockaddr_ll address;
    socklen_t length = sizeof address;
    if (!sides[side].is_lost) {
        if (getsockname(it, (struct sockaddr *)&address, &length) || address.sll_ifindex > 0) return;
        sides[side].is_lost = true;
        fprintf(stderr, "bridge: %s was removed; it is opened again once it is there and up\n", device);
    }
    if (!is_up(it, device)) return;
    pthread_mutex_lock(&lock);
    bool are_done = are_opened(side);
    pthread_mutex_unlock(&lock);
    if (!are_done) return;
    ask();
    let_frames(side);
    sides[side].is_lost = false;
    fprintf(stderr, "bridge: %s is opened again\n", device);
}

static void make_judges(const char *name, racl_handle *sweeper) {
    size_t length;
    uint8_t *text = contents(name, &length);
    must(text != NULL, "the policy", name);
    racl_made made = racl_new(&keeper, text, length, &options);
    if (made.kind != RACL_DONE) write_faults(name, made, text, length), exit(1);
    free(text);
    must(racl_split_wait(&keeper, sweeper) == RACL_DONE, "a judge", name);
    for (uint32_t i = 0; i < threads; i++) must(racl_split_wait(&keeper, &workers[i].judge) == RACL_DONE, "a judge", name);
}

static void read_side(char *word, struct side *side) {
    char *end = word;
    long number = strtol(word, &end, 10);
    int is_named = end != word && *end == '=' && number >= 0 && number <= UINT8_MAX;
    if (is_named) side->interface = (uint8_t)number;
    side->device = is_named ? end + 1 : word;
}

/* The words before the policy's name; where that stands, or 0. */
static int read_words(int count, char **words) {
    for (int option; (option = getopt(count, words, "t:le:n:u:")) != -1;) {
        uint32_t number = optarg ? (uint32_t)strtoul(optarg, NULL, 10) : 0;
        if (option == 't') threads = number;
        else if (option == 'l') options.tables = RACL_LARGE;
        else if (option == 'e') options.established = number;
        else if (option == 'n') options.transient = number;
        else if (option == 'u') options.udp = number;
        else return 0;
    }
    if (threads - 1 >= MOST_THREADS || optind + 1 + SIDES != count) return 0;
    for (int side = 0; side < SIDES; side++) read_side(words[optind + 1 + side], &sides[side]);
    return optind;
}

/* Takes sessions away that ended before this second, of a part of the buckets; how many went. Threads may still be at frames
   of the second before. */
static uint64_t swept(racl_handle *sweeper, uint32_t second) {
    int is_large = options.tables == RACL_LARGE;
    uint64_t part = second % SWEEP_SECONDS;
    uint64_t fours = (is_large ? RACL_LARGE_BUCKETS : RACL_IPV4_BUCKETS) / SWEEP_SECONDS;
    uint64_t sixes = (is_large ? RACL_LARGE_BUCKETS : RACL_IPV6_BUCKETS) / SWEEP_SECONDS;
    return racl_sweep_ipv4_wait(sweeper, part * fours, (part + 1) * fours, second - 1) +
           racl_sweep_ipv6_wait(sweeper, part * sixes, (part + 1) * sixes, second - 1);
}

/* Does what signals say, and sweeps, until it is over; how many sessions were taken away. */
static uint64_t attend(const char *policy, const sigset_t *signals, racl_handle *sweeper) {
    const struct timespec second = {.tv_sec = 1};
    uint64_t went = 0;
    for (uint32_t last = now();;) {
        int told = sigtimedwait(signals, NULL, &second);
        for (uint32_t end = now(); last < end;) went += swept(sweeper, ++last);
        for (uint32_t side = 0; side < SIDES; side++) look_at_device(side);
        if (told == SIGHUP) read_anew(policy);
        if (told == SIGUSR1) ask(), write_counters(went);
        if (told == SIGINT || told == SIGTERM) return went;
    }
}

int main(int count, char **words) {
    int at = read_words(count, words);
    if (!at) {
        fprintf(stderr, "bridge: the words are: [-t THREADS] [-l] [-e S] [-n S] [-u S] POLICY [N=]DEVICE [N=]DEVICE\n");
        return 2;
    }
    sigset_t signals;
    sigemptyset(&signals);
    sigaddset(&signals, SIGHUP), sigaddset(&signals, SIGUSR1), sigaddset(&signals, SIGINT), sigaddset(&signals, SIGTERM);
    pthread_sigmask(SIG_BLOCK, &signals, NULL);

    racl_handle sweeper = RACL_NO_HANDLE;
    make_judges(words[at], &sweeper);
    open_ports();
    for (uint32_t i = 0; i < threads; i++)
        must(!pthread_create(&workers[i].thread, NULL, work, &workers[i]), "a thread", "bridge");
    fprintf(stderr, "bridge: %s at interface %u, %s at interface %u, threads %u\n", sides[0].device, sides[0].interface,
            sides[1].device, sides[1].interface, threads);

    uint64_t went = attend(words[at], &signals, &sweeper);
    atomic_store(&is_over, true);
    for (uint32_t i = 0; i < threads; i++) {
        pthread_join(workers[i].thread, NULL);
        answer(&workers[i]);
        racl_join(&keeper, &workers[i].judge);
    }
    write_counters(went);
    racl_join(&keeper, &sweeper);
    racl_free(&keeper);
    return 0;
}
