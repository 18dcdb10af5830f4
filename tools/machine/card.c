/* Sets a network card up before a run, and down after it: card up|down NAME.
 *
 * Up: lo and the card, each packet as it came on the wire and not joined with others, and then a wait of some seconds
 * for a link. Ends with 1 where that can't be, and says why; with 2 for invalid words, and with 3 where no link came. */
#include <errno.h>
#include <linux/ethtool.h>
#include <linux/sockios.h>
#include <net/if.h>
#include <stdbool.h>
#include <stdint.h>
#include <stdio.h>
#include <stdlib.h>
#include <string.h>
#include <sys/ioctl.h>
#include <sys/socket.h>
#include <unistd.h>

enum { LINK_MS = 8000, LOOK_MS = 20, MOST_FEATURES = 512, FAILED = 1, USAGE = 2, NO_LINK = 3 };

#ifdef __GLIBC__
typedef unsigned long request;
#else
typedef int request; /* as POSIX and musl have it */
#endif

static int asking;

static _Noreturn void fail(const char *name) {
    printf("card: %s: %s\n", name, strerror(errno));
    exit(FAILED);
}
static int ask(request what, struct ifreq *about, const char *name) {
    memcpy(about->ifr_name, name, strnlen(name, IFNAMSIZ - 1));
    return ioctl(asking, what, about);
}
static int flags(const char *name) {
    struct ifreq about = {0};
    if (ask(SIOCGIFFLAGS, &about, name)) fail(name);
    return about.ifr_flags;
}
static void set_up(const char *name, bool is_up) {
    struct ifreq about = {.ifr_flags = (short)(is_up ? flags(name) | IFF_UP : flags(name) & ~IFF_UP)};
    if (ask(SIOCSIFFLAGS, &about, name)) fail(name);
}
/* Whether a card's feature is one that joins received packets. */
static bool joins(const uint8_t *feature) {
    static const char *const all[] = {"rx-gro", "rx-gro-hw", "rx-gro-list", "rx-lro", "rx-udp-gro-forwarding"};
    for (size_t i = 0; i < sizeof all / sizeof *all; i++)
        if (!strncmp((const char *)feature, all[i], ETH_GSTRING_LEN)) return true;
    return false;
}
/* A card that can't be asked, or keeps a feature, stays as it is: the bridge counts what is joined. */
static void separate_packets(const char *name) {
    static struct { struct ethtool_sset_info head; uint32_t count; } info;
    static struct { struct ethtool_gstrings head; uint8_t names[MOST_FEATURES][ETH_GSTRING_LEN]; } all;
    static struct { struct ethtool_sfeatures head; struct ethtool_set_features_block blocks[MOST_FEATURES / 32]; } set;
    info.head.cmd = ETHTOOL_GSSET_INFO, info.head.sset_mask = 1ull << ETH_SS_FEATURES;
    struct ifreq about = {.ifr_data = (void *)&info};
    if (ask(SIOCETHTOOL, &about, name) || !info.count || info.count > MOST_FEATURES) return;
    all.head.cmd = ETHTOOL_GSTRINGS, all.head.string_set = ETH_SS_FEATURES, all.head.len = info.count;
    about.ifr_data = (void *)&all;
    if (ask(SIOCETHTOOL, &about, name)) return;
    set.head.cmd = ETHTOOL_SFEATURES, set.head.size = (info.count + 31) / 32;
    for (uint32_t i = 0; i < info.count; i++)
        if (joins(all.names[i])) set.blocks[i / 32].valid |= 1u << i % 32;
    about.ifr_data = (void *)&set;
    ask(SIOCETHTOOL, &about, name);
}
static bool has_link(const char *name) {
    for (int waited = 0; waited < LINK_MS; waited += LOOK_MS, usleep(LOOK_MS * 1000))
        if (flags(name) & IFF_RUNNING) return true;
    return false;
}
int main(int count, char **words) {
    bool is_up = count == 3 && !strcmp(words[1], "up");
    if (count != 3 || (!is_up && strcmp(words[1], "down")) || strlen(words[2]) >= IFNAMSIZ) return USAGE;
    const char *name = words[2];
    if ((asking = socket(AF_INET, SOCK_DGRAM | SOCK_CLOEXEC, 0)) < 0) fail("socket");
    if (is_up) set_up("lo", true), separate_packets(name);
    set_up(name, is_up);
    if (!is_up) return 0;
    if (has_link(name)) return 0;
    printf("%s: no link; is its cable in?\n", name);
    return NO_LINK;
}
