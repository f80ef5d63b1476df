/* A stand-in for the CAN of the kernel, to be loaded before the C library, for the tools of can-utils where there is none. The interfaces are those that
   CAN_NAMES names, parted by blanks. A socket that is bound to one has a name in the folder CAN_ROOM, and gets each frame that another socket sends to the
   interface, from this or another process, with the time. Without CAN_ROOM a frame that is sent is printed instead: the interface, the identifier and the
   data, as `candump -L` prints them. */
#define _GNU_SOURCE
#include <dirent.h>
#include <dlfcn.h>
#include <errno.h>
#include <linux/can.h>
#include <linux/can/raw.h>
#include <net/if.h>
#include <stdarg.h>
#include <stddef.h>
#include <stdio.h>
#include <stdlib.h>
#include <string.h>
#include <sys/ioctl.h>
#include <sys/socket.h>
#include <sys/time.h>
#include <sys/un.h>
#include <unistd.h>

enum { MOST = 64 };
static int is_can[MOST], bound_to[MOST]; /* by file; of a socket that is bound the number of its interface */

#define SYSTEM(type, name, ...) static type (*system_##name)(__VA_ARGS__)
SYSTEM(int, socket, int, int, int);
SYSTEM(int, bind, int, const struct sockaddr *, socklen_t);
SYSTEM(int, setsockopt, int, int, int, const void *, socklen_t);
SYSTEM(int, ioctl, int, unsigned long, ...);
SYSTEM(ssize_t, write, int, const void *, size_t);
SYSTEM(ssize_t, sendto, int, const void *, size_t, int, const struct sockaddr *, socklen_t);
SYSTEM(ssize_t, recvmsg, int, struct msghdr *, int);

__attribute__((constructor)) static void begin(void) {
#define FIND(name) *(void **)&system_##name = dlsym(RTLD_NEXT, #name)
    FIND(socket), FIND(bind), FIND(setsockopt), FIND(ioctl), FIND(write), FIND(sendto), FIND(recvmsg);
}

static int is_ours(int file) { return file >= 0 && file < MOST && is_can[file]; }

/* The place of a name in CAN_NAMES from 1, or the name at a place; 0 where there is none. */
static int interface(int wanted, char *name) {
    char names[512], *rest = names, *it;
    int number = 0;
    snprintf(names, sizeof names, "%s", getenv("CAN_NAMES") ? getenv("CAN_NAMES") : "");
    while ((it = strsep(&rest, " "))) {
        ++number;
        if (wanted ? wanted == number : !strcmp(it, name)) return snprintf(name, IF_NAMESIZE, "%s", it), number;
    }
    return 0;
}

unsigned if_nametoindex(const char *name) {
    char copy[IF_NAMESIZE];
    snprintf(copy, sizeof copy, "%s", name);
    return (unsigned)interface(0, copy);
}

int ioctl(int file, unsigned long request, ...) {
    va_list rest;
    va_start(rest, request);
    struct ifreq *asked = va_arg(rest, struct ifreq *);
    va_end(rest);
    if (!is_ours(file)) return system_ioctl(file, request, asked);
    if (request == SIOCGIFMTU) return asked->ifr_mtu = CANFD_MTU, 0;
    if (request == SIOCGIFNAME) return interface(asked->ifr_ifindex, asked->ifr_name) ? 0 : -1;
    if (request == SIOCGIFINDEX) return (asked->ifr_ifindex = interface(0, asked->ifr_name)) ? 0 : -1;
    return -1;
}

int socket(int family, int type, int protocol) {
    int file = system_socket(family == AF_CAN ? AF_UNIX : family, family == AF_CAN ? SOCK_DGRAM : type, family == AF_CAN ? 0 : protocol);
    if (family == AF_CAN && file >= 0 && file < MOST) is_can[file] = 1;
    return file;
}

int setsockopt(int file, int level, int name, const void *value, socklen_t length) {
    return is_ours(file) ? 0 : system_setsockopt(file, level, name, value, length);
}

static struct sockaddr_un named(const char *name) {
    struct sockaddr_un address = {.sun_family = AF_UNIX};
    snprintf(address.sun_path, sizeof address.sun_path, "%s/%s", getenv("CAN_ROOM"), name);
    return address;
}

int bind(int file, const struct sockaddr *address, socklen_t length) {
    char name[64];
    if (!is_ours(file)) return system_bind(file, address, length);
    bound_to[file] = ((const struct sockaddr_can *)address)->can_ifindex;
    if (!bound_to[file] || !getenv("CAN_ROOM")) return 0;
    snprintf(name, sizeof name, "%d.%d.%d", bound_to[file], (int)getpid(), file);
    struct sockaddr_un own = named(name);
    return system_bind(file, (struct sockaddr *)&own, sizeof own);
}

static void print(const char *name, const struct canfd_frame *frame, size_t length) {
    printf(frame->can_id & CAN_EFF_FLAG ? "%s %08X#" : "%s %03X#", name, frame->can_id & CAN_EFF_MASK);
    if (length == CANFD_MTU) printf("#%X", frame->flags);
    for (int i = 0; i < frame->len; ++i) printf("%02X", frame->data[i]);
    printf("\n");
}

static ssize_t sends(int file, int to, const void *frame, size_t length) {
    char name[IF_NAMESIZE], begin[16], own[64];
    struct dirent *it;
    if (!interface(to, name) || (length != CAN_MTU && length != CANFD_MTU)) return errno = EINVAL, -1;
    if (!getenv("CAN_ROOM")) return print(name, frame, length), (ssize_t)length;
    snprintf(begin, sizeof begin, "%d.", to);
    snprintf(own, sizeof own, "%d.%d.%d", to, (int)getpid(), file);
    DIR *room = opendir(getenv("CAN_ROOM"));
    while (room && (it = readdir(room))) {
        if (strncmp(it->d_name, begin, strlen(begin)) || !strcmp(it->d_name, own)) continue;
        struct sockaddr_un other = named(it->d_name);
        system_sendto(file, frame, length, 0, (struct sockaddr *)&other, sizeof other);
    }
    if (room) closedir(room);
    return (ssize_t)length;
}

ssize_t sendto(int file, const void *bytes, size_t length, int flags, const struct sockaddr *address, socklen_t size) {
    if (!is_ours(file)) return system_sendto(file, bytes, length, flags, address, size);
    return sends(file, ((const struct sockaddr_can *)address)->can_ifindex, bytes, length);
}

ssize_t write(int file, const void *bytes, size_t length) {
    return is_ours(file) ? sends(file, bound_to[file], bytes, length) : system_write(file, bytes, length);
}

/* A frame with the interface and the time, as SO_TIMESTAMP gives it. */
ssize_t recvmsg(int file, struct msghdr *message, int flags) {
    if (!is_ours(file)) return system_recvmsg(file, message, flags);
    struct msghdr plain = {.msg_iov = message->msg_iov, .msg_iovlen = message->msg_iovlen};
    ssize_t length = system_recvmsg(file, &plain, flags);
    struct sockaddr_can from = {.can_family = AF_CAN, .can_ifindex = bound_to[file]};
    struct timeval now;
    if (length < 0) return length;
    if (message->msg_name) memcpy(message->msg_name, &from, message->msg_namelen < sizeof from ? message->msg_namelen : sizeof from);
    message->msg_flags = 0;
    if (message->msg_controllen >= CMSG_SPACE(sizeof now)) {
        struct cmsghdr *time = (struct cmsghdr *)message->msg_control;
        gettimeofday(&now, NULL);
        *time = (struct cmsghdr){.cmsg_len = CMSG_LEN(sizeof now), .cmsg_level = SOL_SOCKET, .cmsg_type = SO_TIMESTAMP};
        memcpy(CMSG_DATA(time), &now, sizeof now);
        message->msg_controllen = CMSG_SPACE(sizeof now);
    }
    return length;
}
