/* A plain hub, which passes each frame of a stream to all other streams. A frame follows its length in two octets, the
   higher one first.

       hub each SOCKET..    writes each frame by itself
       hub all SOCKET..     writes all whole frames of a read at once */

#include <poll.h>
#include <stdio.h>
#include <string.h>
#include <sys/socket.h>
#include <sys/un.h>
#include <unistd.h>

enum { MOST = 16, ROOM = 131072 };

static unsigned char held[MOST][ROOM];
static size_t length[MOST];
static struct pollfd streams[MOST];
static int at_once;

static int connect_to(const char *path)
{
    struct sockaddr_un name = {.sun_family = AF_UNIX};
    int stream = socket(AF_UNIX, SOCK_STREAM, 0);
    strncpy(name.sun_path, path, sizeof name.sun_path - 1);
    if (stream < 0 || connect(stream, (struct sockaddr *)&name, sizeof name) != 0) {
        perror(path);
        return -1;
    }
    return stream;
}

static void write_whole(int stream, const unsigned char *octets, size_t left)
{
    while (left > 0) {
        ssize_t taken = write(stream, octets, left);
        if (taken <= 0)
            return;
        octets += taken;
        left -= (size_t)taken;
    }
}

/* Returns the octets of the next frame with its length, or 0 if it is not whole. */
static size_t next_frame(const unsigned char *octets, size_t have)
{
    if (have < 2)
        return 0;
    size_t end = 2 + ((size_t)octets[0] << 8 | octets[1]);
    return end > have ? 0 : end;
}

/* Returns how many octets the next write takes: those of one frame, or of all. */
static size_t portion(const unsigned char *octets, size_t have)
{
    size_t end = 0, frame;
    while ((frame = next_frame(octets + end, have - end)) != 0) {
        end += frame;
        if (!at_once)
            break;
    }
    return end;
}

/* Reads a stream and passes whole frames on. Returns 0 at the end of the stream. */
static int pass(int from, int count)
{
    ssize_t came = read(streams[from].fd, held[from] + length[from], ROOM - length[from]);
    if (came <= 0)
        return 0;
    length[from] += (size_t)came;
    size_t start = 0, end;
    while ((end = portion(held[from] + start, length[from] - start)) != 0) {
        for (int to = 0; to < count; to++)
            if (to != from)
                write_whole(streams[to].fd, held[from] + start, end);
        start += end;
    }
    memmove(held[from], held[from] + start, length[from] - start);
    length[from] -= start;
    return 1;
}

int main(int argc, char **argv)
{
    int count = argc - 2, open = count;
    if (count < 2 || count > MOST) {
        fprintf(stderr, "usage: hub each|all SOCKET SOCKET..\n");
        return 2;
    }
    at_once = strcmp(argv[1], "all") == 0;
    for (int place = 0; place < count; place++) {
        streams[place].fd = connect_to(argv[place + 2]);
        streams[place].events = POLLIN;
        if (streams[place].fd < 0)
            return 1;
    }
    while (open > 0 && poll(streams, (nfds_t)count, -1) > 0)
        for (int place = 0; place < count; place++)
            if (streams[place].revents != 0 && !pass(place, count)) {
                streams[place].events = 0;
                streams[place].fd = ~streams[place].fd;
                open--;
            }
    return 0;
}
