/* Sends answers that nobody asked for, from a server's address to a client, as many in a second as are wanted.

   usage: flood INTERFACE MAC SERVER CLIENT RATE SECONDS

   MAC is the client's. They go to the interface past its queue. What is printed is how many were sent, and in how many
   nanoseconds. */
#define _GNU_SOURCE
#include <arpa/inet.h>
#include <linux/if_packet.h>
#include <net/ethernet.h>
#include <net/if.h>
#include <stdint.h>
#include <stdio.h>
#include <stdlib.h>
#include <string.h>
#include <sys/socket.h>
#include <time.h>

enum { MANY = 64, IP = 14, UDP = 34, NTP = 42, SIZE = 90 };

static uint64_t now(void) {
    struct timespec at;
    clock_gettime(CLOCK_MONOTONIC, &at);
    return at.tv_sec * 1000000000ull + at.tv_nsec;
}

static void fill(uint8_t *frame, char **words) {
    memset(frame, 0, SIZE);
    sscanf(words[2], "%hhx:%hhx:%hhx:%hhx:%hhx:%hhx", frame, frame + 1, frame + 2, frame + 3, frame + 4, frame + 5);
    memcpy(frame + 6, "\2\0\0\0\0\1\x08\0\x45\0\0\x4c\0\0\0\0\x40\x11", 18);
    inet_pton(AF_INET, words[3], frame + IP + 12);
    inet_pton(AF_INET, words[4], frame + IP + 16);
    uint32_t sum = 0;
    for (int at = IP; at < UDP; at += 2)
        sum += frame[at] << 8 | frame[at + 1];
    while (sum >> 16)
        sum = (sum & 0xffff) + (sum >> 16);
    frame[IP + 10] = ~sum >> 8;
    frame[IP + 11] = ~sum;
    memcpy(frame + UDP, "\0\x7b\x9c\xbb\0\x38\0\0\x24\1", 10);
}

int main(int count, char **words) {
    if (count != 7)
        return 2;
    uint64_t rate = strtoull(words[5], 0, 10), wanted = rate * strtoull(words[6], 0, 10), sent = 0;
    int out = socket(AF_PACKET, SOCK_RAW, 0), on = 1;
    struct sockaddr_ll to = {.sll_family = AF_PACKET, .sll_ifindex = if_nametoindex(words[1]), .sll_halen = 6};
    if (out < 0 || setsockopt(out, SOL_PACKET, PACKET_QDISC_BYPASS, &on, sizeof on) ||
        bind(out, (struct sockaddr *)&to, sizeof to))
        return perror("flood"), 1;
    static uint8_t frames[MANY][SIZE];
    struct iovec parts[MANY];
    struct mmsghdr some[MANY] = {0};
    for (int k = 0; k < MANY; k++) {
        fill(frames[k], words);
        parts[k] = (struct iovec){frames[k], SIZE};
        some[k].msg_hdr = (struct msghdr){.msg_iov = &parts[k], .msg_iovlen = 1};
    }
    uint64_t begin = now(), end = begin + 2 * 1000000000ull * strtoull(words[6], 0, 10);
    while (sent < wanted && now() < end) {
        if (sent > (now() - begin) * rate / 1000000000ull) {
            nanosleep(&(struct timespec){0, 50000}, 0);
            continue;
        }
        for (int k = 0; k < MANY; k++) {
            uint64_t origin = sent + k + 1;
            memcpy(frames[k] + NTP + 24, &origin, 8);
        }
        int done = sendmmsg(out, some, MANY, 0);
        sent += done > 0 ? done : 0;
    }
    printf("%llu %llu\n", (unsigned long long)sent, (unsigned long long)(now() - begin));
    return 0;
}
