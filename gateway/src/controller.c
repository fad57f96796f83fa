#include "controller.h"

#include <errno.h>
#include <linux/can/netlink.h>
#include <linux/if_link.h>
#include <linux/netlink.h>
#include <linux/rtnetlink.h>
#include <string.h>
#include <sys/socket.h>

#define ANSWER_BYTES 16384

static const char *const STATES[] = {"error-active", "error-warning", "error-passive", "bus-off", "stopped", "sleeping"};
_Static_assert(sizeof STATES / sizeof STATES[0] == CAN_STATE_MAX, "a word for each state");

int controller_open(void)
{
    return socket(AF_NETLINK, SOCK_RAW | SOCK_NONBLOCK | SOCK_CLOEXEC, NETLINK_ROUTE);
}

/* The bytes of the attribute of that type among those from `at`, at least `least` of them; NULL where there is none. */
static const void *find(const void *at, size_t length, unsigned type, size_t least, size_t *found)
{
    const uint8_t *bytes = at;
    while (length >= sizeof(struct rtattr)) {
        struct rtattr head;
        memcpy(&head, bytes, sizeof head);
        if (head.rta_len < sizeof head || head.rta_len > length)
            return NULL;
        *found = head.rta_len - RTA_LENGTH(0);
        if ((head.rta_type & NLA_TYPE_MASK) == type)
            return *found >= least ? bytes + RTA_LENGTH(0) : NULL;
        size_t step = RTA_ALIGN(head.rta_len);
        if (step >= length)
            return NULL;
        bytes += step;
        length -= step;
    }
    return NULL;
}

static void read_controller(const void *data, size_t length, struct controller *controller)
{
    size_t found;
    struct can_bittiming timing;
    struct can_berr_counter errors;
    uint32_t state;
    const void *at = find(data, length, IFLA_CAN_BITTIMING, sizeof timing, &found);
    if (at != NULL) {
        memcpy(&timing, at, sizeof timing);
        controller->bit_rate = timing.bitrate;
    }
    at = find(data, length, IFLA_CAN_STATE, sizeof state, &found);
    if (at != NULL) {
        memcpy(&state, at, sizeof state);
        controller->state = state < CAN_STATE_MAX ? STATES[state] : "unknown";
    }
    at = find(data, length, IFLA_CAN_BERR_COUNTER, sizeof errors, &found);
    controller->errors_told = at != NULL;
    if (at != NULL) {
        memcpy(&errors, at, sizeof errors);
        controller->sent_errors = errors.txerr;
        controller->received_errors = errors.rxerr;
    }
    at = find(data, length, IFLA_CAN_RESTART_MS, sizeof controller->restart_ms, &found);
    controller->restart_told = at != NULL;
    if (at != NULL)
        memcpy(&controller->restart_ms, at, sizeof controller->restart_ms);
}

void controller_read(const void *answer, size_t length, struct controller *controller)
{
    struct nlmsghdr head;
    size_t found;
    memset(controller, 0, sizeof *controller);
    if (length < NLMSG_SPACE(sizeof(struct ifinfomsg)))
        return;
    memcpy(&head, answer, sizeof head);
    if (head.nlmsg_type != RTM_NEWLINK || head.nlmsg_len > length || head.nlmsg_len < NLMSG_SPACE(sizeof(struct ifinfomsg)))
        return;
    const uint8_t *attributes = (const uint8_t *)answer + NLMSG_SPACE(sizeof(struct ifinfomsg));
    const void *info = find(attributes, head.nlmsg_len - NLMSG_SPACE(sizeof(struct ifinfomsg)), IFLA_LINKINFO, 0, &found);
    if (info == NULL)
        return;
    size_t info_length = found;
    const char *kind = find(info, info_length, IFLA_INFO_KIND, sizeof "can", &found);
    if (kind == NULL || memcmp(kind, "can", sizeof "can") != 0)
        return;
    const void *data = find(info, info_length, IFLA_INFO_DATA, 0, &found);
    if (data != NULL)
        read_controller(data, found, controller);
}

void controller_ask(int fd, int index, struct controller *controller)
{
    static uint8_t answer[ANSWER_BYTES];
    struct {
        struct nlmsghdr head;
        struct ifinfomsg about;
    } question;
    memset(controller, 0, sizeof *controller);
    memset(&question, 0, sizeof question);
    question.head.nlmsg_len = sizeof question;
    question.head.nlmsg_type = RTM_GETLINK;
    question.head.nlmsg_flags = NLM_F_REQUEST;
    question.about.ifi_index = index;
    if (fd < 0 || index <= 0 || send(fd, &question, sizeof question, MSG_DONTWAIT) != (ssize_t)sizeof question)
        return;
    /* The kernel answers within the call that asks. */
    ssize_t got = recv(fd, answer, sizeof answer, MSG_DONTWAIT);
    if (got > 0)
        controller_read(answer, (size_t)got, controller);
}
