/* Sends frames to network interfaces and prints received ones. Lines of standard input are commands:

       at NAME          opens an interface
       send NAME HEX    sends a frame
       wait MS          prints `NAME HEX` for each received frame, for this many milliseconds
       say TEXT         prints the text

   The kernel removes the outermost tag of a frame, and gives it as auxiliary data. This program inserts it again. */

#include <arpa/inet.h>
#include <linux/if_packet.h>
#include <net/ethernet.h>
#include <net/if.h>
#include <poll.h>
#include <stdio.h>
#include <stdlib.h>
#include <string.h>
#include <sys/socket.h>
#include <time.h>

enum { MOST = 16, ROOM = 4096 };

static char names[MOST][IFNAMSIZ];
static struct pollfd sockets[MOST];
static int count;

static void open_at(const char *name)
{
    int one = 1;
    int index = (int)if_nametoindex(name);
    struct sockaddr_ll at = {.sll_family = AF_PACKET, .sll_protocol = htons(ETH_P_ALL), .sll_ifindex = index};
    struct packet_mreq all = {.mr_ifindex = index, .mr_type = PACKET_MR_PROMISC};
    int stream = socket(AF_PACKET, SOCK_RAW, htons(ETH_P_ALL));
    if (stream < 0 || bind(stream, (struct sockaddr *)&at, sizeof at) != 0)
        perror(name);
    setsockopt(stream, SOL_PACKET, PACKET_AUXDATA, &one, sizeof one);
    setsockopt(stream, SOL_PACKET, PACKET_ADD_MEMBERSHIP, &all, sizeof all);
    strncpy(names[count], name, IFNAMSIZ - 1);
    sockets[count].fd = stream;
    sockets[count++].events = POLLIN;
}

static int place_of(const char *name)
{
    for (int place = 0; place < count; place++)
        if (strcmp(names[place], name) == 0)
            return place;
    return 0;
}

static void send_frame(const char *name, const char *digits)
{
    unsigned char frame[ROOM];
    size_t length = strlen(digits) / 2;
    for (size_t place = 0; place < length && place < ROOM; place++) {
        char pair[3] = {digits[2 * place], digits[2 * place + 1], 0};
        frame[place] = (unsigned char)strtoul(pair, NULL, 16);
    }
    if (send(sockets[place_of(name)].fd, frame, length, 0) != (ssize_t)length)
        printf("%s not sent\n", name);
}

/* Stores the tag of the auxiliary data, if there is one. Returns whether there is. */
static int tag_of(struct msghdr *message, unsigned char tag[4])
{
    for (struct cmsghdr *part = CMSG_FIRSTHDR(message); part != NULL; part = CMSG_NXTHDR(message, part)) {
        struct tpacket_auxdata aux;
        if (part->cmsg_level != SOL_PACKET || part->cmsg_type != PACKET_AUXDATA)
            continue;
        memcpy(&aux, CMSG_DATA(part), sizeof aux);
        if (!(aux.tp_status & TP_STATUS_VLAN_VALID))
            return 0;
        unsigned type = aux.tp_status & TP_STATUS_VLAN_TPID_VALID ? aux.tp_vlan_tpid : 0x8100;
        tag[0] = (unsigned char)(type >> 8), tag[1] = (unsigned char)type;
        tag[2] = (unsigned char)(aux.tp_vlan_tci >> 8), tag[3] = (unsigned char)aux.tp_vlan_tci;
        return 1;
    }
    return 0;
}

static void print_digits(const unsigned char *octets, size_t length)
{
    for (size_t place = 0; place < length; place++)
        printf("%02x", octets[place]);
}

static void print_frame(int place)
{
    unsigned char frame[ROOM], tag[4];
    char beside[256];
    struct sockaddr_ll from;
    struct iovec part = {frame, sizeof frame};
    struct msghdr message = {&from, sizeof from, &part, 1, beside, sizeof beside, 0};
    ssize_t length = recvmsg(sockets[place].fd, &message, 0);
    if (length < 12 || from.sll_pkttype == PACKET_OUTGOING)
        return;
    printf("%s ", names[place]);
    print_digits(frame, 12);
    if (tag_of(&message, tag))
        print_digits(tag, 4);
    print_digits(frame + 12, (size_t)length - 12);
    printf("\n");
}

static long now(void)
{
    struct timespec time;
    clock_gettime(CLOCK_MONOTONIC, &time);
    return time.tv_sec * 1000 + time.tv_nsec / 1000000;
}

static void wait_for(long milliseconds)
{
    long end = now() + milliseconds, left;
    while ((left = end - now()) > 0)
        if (poll(sockets, (nfds_t)count, (int)left) > 0)
            for (int place = 0; place < count; place++)
                if (sockets[place].revents & POLLIN)
                    print_frame(place);
}

int main(void)
{
    static char line[3 * ROOM], digits[2 * ROOM + 1], name[32];
    setvbuf(stdout, NULL, _IOLBF, 0);
    while (fgets(line, sizeof line, stdin) != NULL) {
        if (sscanf(line, "at %15s", name) == 1)
            open_at(name);
        else if (sscanf(line, "send %15s %8192s", name, digits) == 2)
            send_frame(name, digits);
        else if (strncmp(line, "wait ", 5) == 0)
            wait_for(atol(line + 5));
        else if (strncmp(line, "say ", 4) == 0)
            fputs(line + 4, stdout);
    }
    return 0;
}
