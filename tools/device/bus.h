/* SocketCAN: a socket for each device, what waits, and trouble: said once, given to the device and mended. */

#define RETRY_MS 100 /* an interface that is down is looked at again at least so often */
#define PASSIVE_BITS (CAN_ERR_CRTL_RX_PASSIVE | CAN_ERR_CRTL_TX_PASSIVE)

/* The bus is now like this to a device, and the first of its interface says so. One that was down has recovered, as from bus-off. */
static void become(struct device *device, enum health health)
{
    enum health was = device->health;
    struct device *first = devices;
    if (health == DOWN) {
        close(device->bus);
        device->bus = -1;
    }
    if (health == was) return;
    device->health = health;
    while (strcmp(first->interface, device->interface) != 0) first++;
    if (first == device) fprintf(stderr, "%s: %s\n", device->interface, health_names[health]);
    if (health == ACTIVE && was != PASSIVE) send_frames(device, bafokun_bus(&device->node, BAFOKUN_BUS_RECOVERED, FRAMES));
    if (health != DOWN) send_frames(device, bafokun_bus(&device->node, (uint8_t)health, FRAMES));
}

/* Opens the socket of a device, if its interface is up. False, with errno: there is no such interface. */
static bool open_bus(struct device *device)
{
    static const can_err_mask_t errors = CAN_ERR_BUSOFF | CAN_ERR_CRTL | CAN_ERR_RESTARTED;
    struct sockaddr_can at = { .can_family = AF_CAN, .can_ifindex = (int)if_nametoindex(device->interface) };
    if (at.can_ifindex == 0) return false; /* as the index to bind to that would be every interface */
    int fd = device->bus = socket(PF_CAN, SOCK_RAW | SOCK_NONBLOCK | SOCK_CLOEXEC, CAN_RAW);
    if (fd >= 0 && setsockopt(fd, SOL_CAN_RAW, CAN_RAW_ERR_FILTER, &errors, sizeof errors) == 0
        && bind(fd, (struct sockaddr *)&at, sizeof at) == 0 && wake_by(fd, EPOLLIN)
        && getsockopt(fd, SOL_SOCKET, SO_ERROR, &errno, &(socklen_t){ sizeof errno }) == 0 && errno == 0) return true;
    if (errno != ENETDOWN && device->health != DOWN) return false;
    become(device, DOWN);
    return true;
}

/* Whether the frame was sent; else it has to wait. */
static bool send_now(struct device *device, const bafokun_frame *frame)
{
    struct can_frame out = { .can_id = frame->id, .can_dlc = (uint8_t)frame->length };
    memcpy(out.data, frame->bytes, frame->length);
    if (device->bus < 0) return false;
    if (write(device->bus, &out, sizeof out) == (ssize_t)sizeof out) return true;
    if (errno != ENOBUFS && errno != EAGAIN && errno != EINTR) become(device, DOWN);
    return false;
}

/* A frame waits no longer. */
static void forget(struct device *device, struct waiting *at)
{
    device->others -= !at->is_tpdo;
    memmove(at, at + 1, (size_t)(device->queue + --device->waiting - at) * sizeof *at);
}

/* Sends a frame, or lets it wait: a TPDO in the place of its older one, a heartbeat in that of its like. */
static void put_on_bus(struct device *device, const bafokun_frame *frame)
{
    struct waiting new = { *frame, false }, *same = NULL, *oldest = NULL;
    uint8_t id[4];
    size_t length;
    if (device->waiting == 0 && send_now(device, frame)) return;
    for (uint16_t index = 0x1800; index < 0x1A00; index++)
        new.is_tpdo |= bafokun_value(&device->node, index, 1, id, sizeof id, &length) && length == sizeof id
            && !(id[3] & 0x80) && (id[0] | (id[1] & 7) << 8) == frame->id;
    for (struct waiting *at = device->queue + device->waiting; at-- > device->queue; ) {
        if (!same && at->frame.id == frame->id && at->is_tpdo == new.is_tpdo) same = at;
        if (at->is_tpdo) oldest = at;
    }
    /* a heartbeat is one byte, and that of a boot-up is 0 */
    bool replaces = same && (new.is_tpdo || (frame->length == 1 && frame->bytes[0] && same->frame.bytes[0] == frame->bytes[0]));
    bool throws = !replaces && device->waiting >= MOST_WAITING && oldest;
    if (throws) forget(device, oldest);
    device->thrown += throws;
    *(replaces ? same : &device->queue[device->waiting++]) = new;
    device->others += !replaces && !new.is_tpdo;
}

static void send_frames(struct device *device, size_t count)
{
    for (size_t i = 0; i < count; i++) (in_stdio ? print_frame : put_on_bus)(device, &frames[i]);
}

/* So much waits that the device gets no input: no frame, no tick, and nothing of the application. */
static bool is_crowded(const struct device *device) { return device->others >= MOST_WAITING; }

/* A device gets the ticks that elapsed, while there is room for what it sends. */
static void catch_up(struct device *device)
{
    for (uint32_t done; device->ticks < elapsed && !is_crowded(device); device->ticks += done)
        send_frames(device, bafokun_ticks(&device->node, MIN(elapsed - device->ticks, DAY_MS), &done, FRAMES));
}

/* At each turn of the loop: what is down or waits is tried again, what came is taken. True: more may have. */
static bool tend_bus(struct device *device)
{
    struct can_frame in;
    int taken = 0;
    if (device->bus < 0) open_bus(device);
    while (device->waiting > 0 && send_now(device, &device->queue[0].frame)) forget(device, device->queue);
    if (device->bus >= 0 && device->health == DOWN && !is_crowded(device)) become(device, ACTIVE);
    catch_up(device);
    for (; taken < MOST_TAKEN && device->bus >= 0 && !is_crowded(device); taken++) {
        ssize_t size = read(device->bus, &in, sizeof in);
        if (size < 0 && errno != EAGAIN) become(device, DOWN);
        if (size < 0) break;
        canid_t error = in.can_id & CAN_ERR_FLAG ? in.can_id : 0;
        int state = error & CAN_ERR_CRTL ? in.data[1] & ~(CAN_ERR_CRTL_RX_OVERFLOW | CAN_ERR_CRTL_TX_OVERFLOW) : 0;
        if (error & CAN_ERR_BUSOFF) become(device, BUS_OFF);
        if (error & CAN_ERR_RESTARTED) become(device, ACTIVE);
        if (device->health != BUS_OFF && state) become(device, state & PASSIVE_BITS ? PASSIVE : ACTIVE);
        bafokun_frame frame = { in.can_id > CAN_SFF_MASK ? UINT16_MAX : (uint16_t)in.can_id, in.can_dlc, { 0 } };
        memcpy(frame.bytes, in.data, sizeof frame.bytes);
        send_frames(device, bafokun_take(&device->node, &frame, FRAMES)); /* not one of 29 bits */
    }
    return taken == MOST_TAKEN;
}
