/* Preloaded: whenever the driver asks for a circuit's peer, the circuit's options are added to the file $OPTIONS. What
 * they do where packets are lost cannot be tried without rights on the network. */
#define _GNU_SOURCE
#include <dlfcn.h>
#include <netinet/in.h>
#include <netinet/tcp.h>
#include <stdio.h>
#include <stdlib.h>
#include <sys/socket.h>

typedef int asking(int, __SOCKADDR_ARG, socklen_t *);

static int value_of(int circuit, int level, int option)
{
    int value = -1;
    socklen_t length = sizeof value;

    getsockopt(circuit, level, option, &value, &length);
    return value;
}

static void note(int circuit)
{
    struct linger linger = {-1, -1};
    socklen_t length = sizeof linger;
    FILE *file = fopen(getenv("OPTIONS"), "a");

    getsockopt(circuit, SOL_SOCKET, SO_LINGER, &linger, &length);
    fprintf(file, "kept alive %d, after %d s, each %d s, %d times, in all %d ms; reset %d\n",
            value_of(circuit, SOL_SOCKET, SO_KEEPALIVE), value_of(circuit, IPPROTO_TCP, TCP_KEEPIDLE),
            value_of(circuit, IPPROTO_TCP, TCP_KEEPINTVL), value_of(circuit, IPPROTO_TCP, TCP_KEEPCNT),
            value_of(circuit, IPPROTO_TCP, TCP_USER_TIMEOUT), linger.l_onoff == 1 && linger.l_linger == 0);
    fclose(file);
}

int getpeername(int circuit, __SOCKADDR_ARG address, socklen_t *length)
{
    note(circuit);
    return ((asking *)dlsym(RTLD_NEXT, "getpeername"))(circuit, address, length);
}
