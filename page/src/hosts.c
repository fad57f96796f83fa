#include "hosts.h"

#include <arpa/inet.h>
#include <stdio.h>
#include <string.h>

static void add(struct hosts *hosts, const char *name, uint16_t port, bool tls)
{
    if (hosts->count == HOSTS_MAX)
        return;
    if (port == (tls ? 443 : 80))
        snprintf(hosts->at[hosts->count++], HOST_BYTES, "%s", name);
    else
        snprintf(hosts->at[hosts->count++], HOST_BYTES, "%s:%u", name, (unsigned)port);
}

static void add_address(struct hosts *hosts, const struct options *options, uint16_t port)
{
    char text[INET6_ADDRSTRLEN], name[INET6_ADDRSTRLEN + 2];
    bool six = options->address.any.sa_family == AF_INET6;
    const void *address = six ? (const void *)&options->address.six.sin6_addr : (const void *)&options->address.four.sin_addr;
    if (inet_ntop(options->address.any.sa_family, address, text, sizeof text) == NULL)
        return;
    snprintf(name, sizeof name, six ? "[%s]" : "%s", text);
    add(hosts, name, port, options->certificate != NULL);
}

void hosts_make(struct hosts *hosts, const struct options *options, uint16_t port)
{
    bool tls = options->certificate != NULL;
    memset(hosts, 0, sizeof *hosts);
    hosts->scheme = tls ? "https://" : "http://";
    add_address(hosts, options, port);
    if (options->loopback)
        add(hosts, "localhost", port, tls);
    for (unsigned i = 0; i < options->hosts_count; i++)
        add(hosts, options->hosts[i], port, tls);
}

bool hosts_know(const struct hosts *hosts, const char *host)
{
    for (unsigned i = 0; host != NULL && i < hosts->count; i++)
        if (strcasecmp(hosts->at[i], host) == 0)
            return true;
    return false;
}

bool hosts_is_origin(const struct hosts *hosts, const char *origin, const char *host)
{
    size_t scheme = strlen(hosts->scheme);
    return origin != NULL && strncmp(origin, hosts->scheme, scheme) == 0 && strcasecmp(origin + scheme, host) == 0;
}
