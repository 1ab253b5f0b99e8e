/* Both nodes of the telecommand link for programs in C: the ground, which sends packets until they are accepted, and
 * the spacecraft, which receives them and reports; and a simulated link between two such nodes. For C99 and later, and
 * for C++; see docs/C.md. The numbers of faults, verdicts and alerts, and their names, are those of sedgechisel.h.
 *
 * A handle holds a node or a link, or none. Initialise a handle to {0}, which holds none, and close it before you
 * discard it. In between, only the calls here may write it, and the program must not copy it; nothing can check that.
 * Each call does what its contract in crates/ states, for every value of its arguments: ground_step, spacecraft_step
 * and world_step define the next state and the answer. In the proved archive this is proved; in portable C it is
 * tested.
 *
 * A caller must also ensure the following. No pointer is null, and each is aligned for its type. The octets at a
 * pointer, as many as the count after it states, may be read; if the pointer is not to const, they may also be written.
 * What a call writes overlaps nothing else that its arguments point to. No two threads use a handle at once.
 *
 * What calls return: a uint8_t is SEDGE_NODE_OK, or a number of the one enumeration that the call's comment names, or
 * SEDGE_NODE_NONE, which every call returns for a handle that holds none. Two calls return something other than a
 * fault: sedge_ground_tick an alert, and sedge_config_fault a parameter. If any other call returns a number other than
 * 0, it has written nothing and the node has not changed. SEDGE_CHECK (sedgechisel.h) marks each call whose result can
 * mean more than that the handle holds none.
 *
 * Memory comes from the functions rattle_alloc, rattle_realloc and rattle_dealloc, which malloc.c and static.c contain
 * (docs/C.md); sedgechisel_memory.h describes what each does.
 *
 * A call that takes a frame or a packet writes it to the beginning of the caller's buffer, out, which has room octets.
 * If it does not fit, the call returns SEDGE_NODE_ROOM and takes nothing. A matching call, such as sedge_ground_next,
 * writes how many octets are next, and changes nothing. SEDGE_PACKET_LONGEST octets are enough for every packet,
 * SEDGE_TC_LONGEST for every uplink frame, SEDGE_TM_LONGEST for every downlink frame. */
#ifndef SEDGECHISEL_NODES_H
#define SEDGECHISEL_NODES_H

#include "sedgechisel.h"

#ifdef __cplusplus
extern "C" {
#endif

/* Why a node refuses a call, and the numbers that all calls here share. */
enum sedge_node_status {
    SEDGE_NODE_OK = 0,
    SEDGE_NODE_NOT_OPEN = 1,       /* the sender is in its state Initial (S6) */
    SEDGE_NODE_CLOSED_MAP = 2,     /* the MAP is not open */
    SEDGE_NODE_NOT_COMMAND = 3,    /* the octets are not command packets, or are more of them than one call takes */
    SEDGE_NODE_TOO_LONG = 4,       /* a packet has more octets than it may have */
    SEDGE_NODE_QUEUE_FULL = 5,     /* the queue has too few free slots for the units */
    SEDGE_NODE_MEMORY = 6,         /* out of memory */
    SEDGE_NODE_NOT_KNOWN = 10,     /* nothing is known of how far the session has come */
    SEDGE_NODE_ROOM = 252,         /* the output is too short; nothing was taken */
    SEDGE_NODE_ABSENT = 253,       /* nothing is at this index, there is no CLCW in the octets, or a CLCW states nothing
                                    * about the segments */
    SEDGE_NODE_OUT_OF_RANGE = 254, /* a parameter is out of range */
    SEDGE_NODE_NONE = 255          /* the handle holds no node, or there is no such directive or event */
};

/* The managed parameters (docs/PROFILE.md). Only the ground uses part, since a spacecraft takes segments of up to 1,016
 * octets. */
struct sedge_config {
    uint32_t scid;         /* the spacecraft identifier, 0 to 1,023; default 1 */
    uint32_t vcid;         /* the virtual channel of telecommand frames, 0 to 63; default 2 */
    uint32_t tm_vcid;      /* the virtual channel of telemetry frames, 0 to 7; default 0 */
    uint32_t width;        /* the width of the receiver's window, even, 2 to 254; default 254 */
    uint32_t window;       /* the sender's window K, 1 to width/2; default 127 */
    uint32_t limit;        /* the transmission limit, 1 to 255; default 3 */
    uint32_t timer;        /* the timer's value in ticks, 1 to 65,535; default 10 */
    uint32_t part;         /* the maximum number of data octets in a segment. Without silence before an initiation,
                            * segments of two longer packets can be joined into a command that nobody submitted.
                            * Range 1 to 1,016; default 1,016 */
    uint32_t max_packet;   /* the maximum length of a packet in octets, 7 to 65,542; default 65,542 */
    uint64_t maps;         /* the open MAPs, any 64 bits: bit m, of value 2 to the power of m, is 1 if MAP m is open;
                            * default all ones */
    uint32_t ready_slots;  /* the number of packets waiting to be taken at which the buffer on board is full, 1 to
                            * 64; default 64 */
    uint32_t bypass_slots; /* the maximum number of bypass packets that wait to be taken, 1 to 64; default 4 */
    uint32_t queue_slots;  /* the maximum number of units that wait to be sent for the first time, 1 to 65,535;
                            * default 1,000 */
    uint32_t frame_length; /* the length of a telemetry frame in octets, 16 to 2,048; default 64 */
    uint32_t blocking;     /* 1 if a segment may contain several packets, 0 to 1; default 0 */
};

/* The managed parameters, in the order of their fields. */
enum sedge_parameter {
    SEDGE_NO_PARAMETER = 0,
    SEDGE_PARAMETER_SCID = 1,
    SEDGE_PARAMETER_VCID = 2,
    SEDGE_PARAMETER_TM_VCID = 3,
    SEDGE_PARAMETER_WIDTH = 4,
    SEDGE_PARAMETER_WINDOW = 5,
    SEDGE_PARAMETER_LIMIT = 6,
    SEDGE_PARAMETER_TIMER = 7,
    SEDGE_PARAMETER_PART = 8,
    SEDGE_PARAMETER_MAX_PACKET = 9,
    SEDGE_PARAMETER_MAPS = 10,
    SEDGE_PARAMETER_READY_SLOTS = 11,
    SEDGE_PARAMETER_BYPASS_SLOTS = 12,
    SEDGE_PARAMETER_QUEUE_SLOTS = 13,
    SEDGE_PARAMETER_FRAME_LENGTH = 14,
    SEDGE_PARAMETER_BLOCKING = 15
};

/* Writes the default of each parameter. A program begins with the defaults, and sets the parameters that differ in its
 * mission. */
void sedge_config_default(struct sedge_config *config);

/* Sets a parameter by its number, of sedge_parameter. Returns true; or returns false and sets nothing if no parameter
 * has this number, or if its field cannot hold the value. sedge_config_fault checks the ranges. */
static inline bool sedge_config_set(struct sedge_config *config, uint8_t number, uint64_t value) {
    uint32_t *field = NULL;
    uint64_t *wide = NULL;
    switch (number) {
    case SEDGE_PARAMETER_SCID: field = &config->scid; break;
    case SEDGE_PARAMETER_VCID: field = &config->vcid; break;
    case SEDGE_PARAMETER_TM_VCID: field = &config->tm_vcid; break;
    case SEDGE_PARAMETER_WIDTH: field = &config->width; break;
    case SEDGE_PARAMETER_WINDOW: field = &config->window; break;
    case SEDGE_PARAMETER_LIMIT: field = &config->limit; break;
    case SEDGE_PARAMETER_TIMER: field = &config->timer; break;
    case SEDGE_PARAMETER_PART: field = &config->part; break;
    case SEDGE_PARAMETER_MAX_PACKET: field = &config->max_packet; break;
    case SEDGE_PARAMETER_MAPS: wide = &config->maps; break;
    case SEDGE_PARAMETER_READY_SLOTS: field = &config->ready_slots; break;
    case SEDGE_PARAMETER_BYPASS_SLOTS: field = &config->bypass_slots; break;
    case SEDGE_PARAMETER_QUEUE_SLOTS: field = &config->queue_slots; break;
    case SEDGE_PARAMETER_FRAME_LENGTH: field = &config->frame_length; break;
    case SEDGE_PARAMETER_BLOCKING: field = &config->blocking; break;
    default: break;
    }
    if (wide != NULL) *wide = value;
    else if (field != NULL && value <= UINT32_MAX) *field = (uint32_t)value;
    else return false;
    return true;
}

/* Returns the first parameter that is out of range, of sedge_parameter; SEDGE_NO_PARAMETER for none. A width is also
 * out of range if it is odd, and a window if it is more than half the width. */
SEDGE_CHECK uint8_t sedge_config_fault(const struct sedge_config *config);

/* Names, as tctool writes them; "?" for a number that is not in the enumeration. */
struct sedge_text sedge_parameter_name(uint8_t number);  /* the name of a sedge_parameter: its field in sedge_config */
struct sedge_text sedge_link_fault_name(uint8_t number); /* the name of a sedge_node_status of 1 to 10, else "?" */

/* ---- The ground. ---- */

/* A handle that holds a ground, or none. */
struct sedge_ground {
    void *node;
};

/* Opens a ground, which replaces any ground that the handle holds. The old ground is released once the new one is
 * built: it stays if the call is refused, and until then both occupy memory. If there is memory only for one, close the
 * handle first. Returns 0, SEDGE_NODE_OUT_OF_RANGE or SEDGE_NODE_MEMORY. */
SEDGE_CHECK uint8_t sedge_ground_open(struct sedge_ground *ground, const struct sedge_config *config);

/* Closes the ground, if there is one; the handle then holds none. */
void sedge_ground_close(struct sedge_ground *ground);

/* Gives the ground's sender a directive, of sedge_directive (sedgechisel.h), with its value; a directive without a
 * value ignores it. Returns 0, or SEDGE_COP_WRONG_STATE, or for a value out of range SEDGE_COP_WINDOW, SEDGE_COP_LIMIT
 * or SEDGE_COP_TIMER. Returns SEDGE_NODE_NONE also for a number that is not a directive, and for a V(R) or V(S) above
 * 255. */
SEDGE_CHECK uint8_t sedge_ground_directive(struct sedge_ground *ground, uint8_t directive, uint16_t value);

/* Each directive by its name. Up to 0.2 these were calls of the library; now they call sedge_ground_directive. */
static inline SEDGE_CHECK uint8_t sedge_ground_init_without_check(struct sedge_ground *ground) {
    return sedge_ground_directive(ground, SEDGE_INIT_WITHOUT_CHECK, 0);
}
static inline SEDGE_CHECK uint8_t sedge_ground_init_with_check(struct sedge_ground *ground) {
    return sedge_ground_directive(ground, SEDGE_INIT_WITH_CHECK, 0);
}
static inline SEDGE_CHECK uint8_t sedge_ground_init_unlock(struct sedge_ground *ground) {
    return sedge_ground_directive(ground, SEDGE_INIT_UNLOCK, 0);
}
static inline SEDGE_CHECK uint8_t sedge_ground_init_set_vr(struct sedge_ground *ground, uint8_t vr) {
    return sedge_ground_directive(ground, SEDGE_INIT_SET_VR, vr);
}
static inline SEDGE_CHECK uint8_t sedge_ground_terminate(struct sedge_ground *ground) {
    return sedge_ground_directive(ground, SEDGE_TERMINATE, 0);
}
static inline SEDGE_CHECK uint8_t sedge_ground_set_vs(struct sedge_ground *ground, uint8_t vs) {
    return sedge_ground_directive(ground, SEDGE_SET_VS, vs);
}
static inline SEDGE_CHECK uint8_t sedge_ground_set_window(struct sedge_ground *ground, uint8_t window) {
    return sedge_ground_directive(ground, SEDGE_SET_WINDOW, window);
}
static inline SEDGE_CHECK uint8_t sedge_ground_set_limit(struct sedge_ground *ground, uint8_t limit) {
    return sedge_ground_directive(ground, SEDGE_SET_LIMIT, limit);
}
static inline SEDGE_CHECK uint8_t sedge_ground_set_timer(struct sedge_ground *ground, uint16_t timer) {
    return sedge_ground_directive(ground, SEDGE_SET_TIMER, timer);
}

/* Submits one packet on a MAP under sequence control, or several if blocking is on. sedge_map_count writes the number
 * of their segments. sedge_ground_resume is promised to count correctly only the submissions that are one packet, or
 * packets that share one segment. Returns 0, or the first of 1 to 5 of sedge_node_status that applies, or
 * SEDGE_NODE_MEMORY. */
SEDGE_CHECK uint8_t sedge_ground_submit(struct sedge_ground *ground, uint8_t map, const uint8_t *octets, size_t count);

/* Submits one packet on a MAP by bypass (Type-BD). Returns 0, or the first of 2 to 5 of sedge_node_status that applies,
 * or SEDGE_NODE_MEMORY. */
SEDGE_CHECK uint8_t sedge_ground_bypass(struct sedge_ground *ground, uint8_t map, const uint8_t *octets, size_t count);

/* Writes the length in octets of the next frame for the link, 8 to 1,024, or 0 if nothing is to be sent. Returns 0. */
uint8_t sedge_ground_next(struct sedge_ground *ground, size_t *count);

/* Takes the next frame for the link, with its FECF (232.0-B-4, 4.1). Writes it and the number of its octets, or 0
 * octets if nothing is to be sent. Returns 0 or SEDGE_NODE_ROOM. */
SEDGE_CHECK uint8_t sedge_ground_pull(struct sedge_ground *ground, uint8_t *out, size_t room, size_t *count);

/* Writes the next frame for the link as sedge_ground_pull does; the ground does not change. If the radio may refuse a
 * frame, call sedge_ground_advance once it has taken this one: the frame then counts as sent. Returns 0 or
 * SEDGE_NODE_ROOM. */
SEDGE_CHECK uint8_t sedge_ground_peek(struct sedge_ground *ground, uint8_t *out, size_t room, size_t *count);

/* Counts the next frame for the link as sent, as sedge_ground_pull does. If nothing is to be sent, nothing changes.
 * Returns 0. */
uint8_t sedge_ground_advance(struct sedge_ground *ground);

/* The kinds of octets that the ground receives. */
enum sedge_heard_kind {
    SEDGE_HEARD_INVALID = 1, /* not a valid frame */
    SEDGE_HEARD_FOREIGN = 2, /* a frame of another spacecraft or virtual channel */
    SEDGE_HEARD_FRAME = 3,   /* a frame of this spacecraft and virtual channel */
    SEDGE_HEARD_CLCW = 4     /* a CLCW by itself */
};

/* What becomes of a CLCW. */
enum sedge_heard_report {
    SEDGE_REPORT_USED = 0,         /* it is passed to the sender */
    SEDGE_REPORT_REFUSED = 1,      /* it is not a valid CLCW */
    SEDGE_REPORT_OTHER_CHANNEL = 2 /* it reports on another virtual channel */
};

/* What the ground makes of octets that it received: their kind, and the fields for that kind and for what becomes of
 * the CLCW. The note of a field begins with the constants of these two for which the field is set, without
 * SEDGE_HEARD_ or SEDGE_REPORT_; for all others it is 0. */
struct sedge_heard {
    size_t packets;     /* FRAME: the number of packets added to those that wait to be taken */
    uint8_t kind;       /* of sedge_heard_kind */
    uint8_t fault;      /* INVALID: why the octets do not form a valid frame, of sedge_tm_fault */
    uint8_t first;      /* FRAME: whether it is the first frame, 0 or 1 */
    uint8_t missing;    /* FRAME: the number of frames that are missing before it */
    uint8_t report;     /* FRAME, CLCW: what becomes of the CLCW, of sedge_heard_report */
    uint8_t word_fault; /* REFUSED: why it is not a valid CLCW, of sedge_clcw_fault */
    uint8_t alert;      /* USED: of sedge_alert, SEDGE_NO_ALERT for none */
};

/* Takes octets that came from the spacecraft, and writes what they are. Returns 0, or SEDGE_NODE_MEMORY, which is
 * possible only if they complete a packet. */
SEDGE_CHECK uint8_t sedge_ground_telemetry(struct sedge_ground *ground, const uint8_t *octets, size_t count,
                                           struct sedge_heard *heard);

/* Takes a CLCW that came by itself, as a front end forwards it (232.0-B-4, 4.2), and writes what becomes of it, as
 * sedge_ground_telemetry does for a frame's CLCW. Telemetry is not touched. Until the next CLCW, the front end may
 * repeat the newest one since the initiation (docs/PROFILE.md, "An idle start"); it must not forward an older one as if
 * it were new. Returns 0, or SEDGE_NODE_ABSENT if the octets are not four. */
SEDGE_CHECK uint8_t sedge_ground_clcw(struct sedge_ground *ground, const uint8_t *octets, size_t count,
                                      struct sedge_heard *heard);

/* Restarts the extraction of packets from telemetry, for example after a restart of the spacecraft, whose frame counts
 * then continue from other values. An unfinished packet is dropped, and the next frame counts as the first (132.0-B-3,
 * 4.3.2). Packets that wait to be taken stay. Returns 0. */
uint8_t sedge_ground_forget_telemetry(struct sedge_ground *ground);

/* Writes the CLCW that a telemetry frame of any spacecraft and virtual channel carries (232.0-B-4, 4.2); the ground
 * does not change. Returns 0, or SEDGE_NODE_ABSENT if the octets do not form a valid frame or the frame carries no
 * CLCW. */
SEDGE_CHECK uint8_t sedge_ground_clcw_in(struct sedge_ground *ground, const uint8_t *octets, size_t count,
                                         struct sedge_clcw *word);

/* Writes the length in octets of the oldest telemetry packet, 7 to 65,542, or 0 if none waits. Returns 0. */
uint8_t sedge_ground_next_telemetry(struct sedge_ground *ground, size_t *count);

/* Takes the oldest telemetry packet (132.0-B-3, 4.3.2). Writes it and the number of its octets, or 0 octets if none
 * waits. Returns 0 or SEDGE_NODE_ROOM. */
SEDGE_CHECK uint8_t sedge_ground_take_telemetry(struct sedge_ground *ground, uint8_t *out, size_t room, size_t *count);

/* Counts a tick of the clock. Returns the alert, of sedge_alert, SEDGE_NO_ALERT for none. */
SEDGE_CHECK uint8_t sedge_ground_tick(struct sedge_ground *ground);

/* What sedge_ground_read writes. */
struct sedge_ground_reading {
    uint64_t submitted;          /* the number of the session's submissions, which are numbered from 0. This number
                                  * and the two below are modulo 2^64. An alert does not change them; beginning a
                                  * session or setting V(S) makes them 0 */
    uint64_t sent_whole;         /* how many of the session's submissions, counted from the first, were sent whole,
                                  * to the last segment */
    uint64_t acknowledged_whole; /* how many of the session's submissions, counted from the first, are acknowledged
                                  * whole, and are therefore on board */
    size_t outstanding;          /* the number of segments that were submitted and are not acknowledged */
    size_t unsent;               /* how many outstanding segments wait to be sent for the first time */
    size_t due;                  /* how many outstanding segments are to be retransmitted */
    size_t bypassed;             /* how many bypass packets wait to be sent */
    size_t frame_length;         /* the length of a telemetry frame in octets */
    uint16_t ticks;              /* the ticks that are left while the timer runs, otherwise 0 */
    uint8_t state;               /* the sender's state, of sedge_fop_state (232.1-B-2, 5.1) */
    uint8_t vs;                  /* V(S), the number of the next segment that is sent for the first time */
    uint8_t nn;                  /* NN(R), the number that the spacecraft was last known to expect */
    uint8_t count;               /* the transmission count, at least 1 */
};

/* Reads the ground: how far its submissions have come; the sender's state, V(S), NN(R), transmission count and timer;
 * what is outstanding and what waits; and the length of a telemetry frame. The ground does not change. Returns 0. */
uint8_t sedge_ground_read(struct sedge_ground *ground, struct sedge_ground_reading *read);

/* Writes how many of the segments that were sent and not acknowledged were accepted on board when a CLCW with this
 * value was made: the oldest ones (232.1-B-2, 5.1). The call still does so after an alert, until V(S) is set or an
 * initiation begins. But it uses only the numbers: after an alert that shows a broken condition, nothing is known of
 * these segments, whatever it writes. If V(S) is NN(R), there are no such segments, and it writes 0 for every value.
 * Returns 0, or SEDGE_NODE_ABSENT if V(S) is not NN(R) and the value does not lie from NN(R) to V(S): nothing is then
 * known of the segments. */
SEDGE_CHECK uint8_t sedge_ground_accepted_beyond(struct sedge_ground *ground, uint8_t value, uint8_t *accepted);

/* Writes how many of the session's submissions, counted from the first, a CLCW with this value shows to be on board
 * whole: those that are acknowledged, and those whose segments were all accepted according to the CLCW (232.1-B-2,
 * 5.1). The call still does so after an alert. Returns 0, or SEDGE_NODE_ABSENT if nothing is known: no session has
 * begun, V(S) was set or an alert has shown a broken condition since, or V(S) is not NN(R) and the value does not lie
 * from NN(R) to V(S). */
SEDGE_CHECK uint8_t sedge_ground_known_on_board(struct sedge_ground *ground, uint8_t value, uint64_t *whole);

/* Begins the next session after an alert, where the ended one stopped. Sets V(S) to the value of a CLCW that was made
 * when nothing was in transit on the uplink, and begins by Unlock (232.1-B-2, 5.2.4). If V(S) is NN(R), the call
 * accepts any value, so compare the value with V(S) first. Writes how many of the ended session's submissions, counted
 * from the first, are on board whole; resubmit the rest. If a submission of several packets has more octets than a
 * segment takes (part), it is whole only with its last packet: some of its packets may be on board already, and be
 * delivered again. Returns 0. Changes nothing and returns SEDGE_NODE_NOT_KNOWN (10) if the sender is not in S6, no
 * session has begun, V(S) was set or an alert has shown a broken condition since, or V(S) is not NN(R) and the value
 * does not lie from NN(R) to V(S). */
SEDGE_CHECK uint8_t sedge_ground_resume(struct sedge_ground *ground, uint8_t value, uint64_t *whole);

/* The record of a ground: V(S) and NN(R) (232.1-B-2, 5.1), and the counts of the submissions that were sent whole. The
 * record has no padding, so its octets may be stored as they are, and read on the same machine. */
struct sedge_kept_ground {
    uint64_t acknowledged; /* how many submissions are acknowledged whole, modulo 2^64 */
    uint8_t vs;            /* V(S), the number of the next segment that is sent for the first time */
    uint8_t nn;            /* NN(R), the number that the spacecraft was last known to expect */
    uint8_t known;         /* 1 if these numbers are a session's and no alert has shown a broken condition, otherwise
                            * 0 */
    uint8_t whole;         /* the number of further submissions that were sent whole, 0 to 127 */
    uint8_t segments[127]; /* for each of these, the oldest first, the number of its segments that are not
                            * acknowledged; then zeros */
    uint8_t zeros[5];      /* zeros, which are not read */
};

/* Writes the ground's record, which has a fixed size; the ground does not change. Store the record after each call, and
 * after sedge_ground_pull before the frame is sent. If the ground is lost, sedge_ground_open_kept opens another one
 * from the record. The record contains nothing of submissions that were not sent whole, of bypass packets, of
 * telemetry, or of what directives set. Returns 0. */
uint8_t sedge_ground_kept(struct sedge_ground *ground, struct sedge_kept_ground *kept);

/* Opens a ground that continues from the record of a lost one, which sedge_ground_kept wrote. It is in S6, with the
 * V(S), the NN(R) and the counts of submissions of the record. The new ground is the lost one after Terminate, without
 * what waited, and with the window, the limit and the timer of the configuration. So sedge_ground_resume can begin the
 * next session, as after an alert. A ground that the handle holds is treated as by sedge_ground_open. Returns 0,
 * SEDGE_NODE_OUT_OF_RANGE (also for a record that no ground of this configuration writes) or SEDGE_NODE_MEMORY. */
SEDGE_CHECK uint8_t sedge_ground_open_kept(struct sedge_ground *ground, const struct sedge_config *config,
                                           const struct sedge_kept_ground *kept);

/* ---- The spacecraft. ---- */

/* A handle that holds a spacecraft, or none. */
struct sedge_spacecraft {
    void *node;
};

/* Opens a spacecraft, which replaces any that the handle holds, as sedge_ground_open does. Returns 0,
 * SEDGE_NODE_OUT_OF_RANGE or SEDGE_NODE_MEMORY. */
SEDGE_CHECK uint8_t sedge_spacecraft_open(struct sedge_spacecraft *spacecraft, const struct sedge_config *config);

/* Closes the spacecraft, if there is one; the handle then holds none. */
void sedge_spacecraft_close(struct sedge_spacecraft *spacecraft);

/* The kinds of octets that the spacecraft receives. */
enum sedge_received_kind {
    SEDGE_RECEIVED_INVALID = 1, /* not a valid frame */
    SEDGE_RECEIVED_FOREIGN = 2, /* a frame of another spacecraft or virtual channel */
    SEDGE_RECEIVED_AD = 3,      /* a Type-AD frame of this spacecraft and virtual channel */
    SEDGE_RECEIVED_BD = 4,      /* a Type-BD frame of this spacecraft and virtual channel */
    SEDGE_RECEIVED_BC = 5       /* a Type-BC frame of this spacecraft and virtual channel */
};

/* What the spacecraft makes of octets that it received: their kind, and the fields for that kind. The note of a field
 * begins with the kind for which the field is set, without SEDGE_RECEIVED_; for all others it is 0. */
struct sedge_received {
    size_t ready;    /* AD: the number of packets added to those that wait to be taken */
    uint8_t kind;    /* of sedge_received_kind */
    uint8_t fault;   /* INVALID: why the octets do not form a valid frame, of sedge_tc_fault */
    uint8_t n;       /* AD: its number, N(S) */
    uint8_t verdict; /* AD: of sedge_verdict */
    uint8_t dropped; /* AD: why octets on its MAP were dropped, of sedge_dropped; SEDGE_NOT_DROPPED for none */
    bool kept;       /* BD: whether it carried a packet, which is kept */
    uint8_t command; /* BC: of sedge_command */
    uint8_t vr;      /* BC: the number of Set V(R) */
};

/* Takes octets that came from the ground, and writes what they are. Returns 0, or SEDGE_NODE_MEMORY, which is possible
 * only if a frame's data are passed on. */
SEDGE_CHECK uint8_t sedge_spacecraft_receive(struct sedge_spacecraft *spacecraft, const uint8_t *octets, size_t count,
                                             struct sedge_received *received);

/* Writes the MAP of the oldest packet of sequence-controlled frames, and the number of its octets, 7 to 65,542; or
 * writes only 0 to count if none waits. Returns 0. */
uint8_t sedge_spacecraft_next(struct sedge_spacecraft *spacecraft, uint8_t *map, size_t *count);

/* Takes the oldest packet of sequence-controlled frames (232.0-B-4, 4.4). Writes its MAP, the packet, and the number of
 * its octets; or writes only 0 to count if none waits. Returns 0 or SEDGE_NODE_ROOM. */
SEDGE_CHECK uint8_t sedge_spacecraft_take(struct sedge_spacecraft *spacecraft, uint8_t *map, uint8_t *out,
                                          size_t room, size_t *count);

/* Writes the MAP and the number of octets of the oldest bypass packet, as sedge_spacecraft_next does. Returns 0. */
uint8_t sedge_spacecraft_next_bypass(struct sedge_spacecraft *spacecraft, uint8_t *map, size_t *count);

/* Takes the oldest bypass packet (232.0-B-4, 4.4), as sedge_spacecraft_take does. Returns 0 or SEDGE_NODE_ROOM. */
SEDGE_CHECK uint8_t sedge_spacecraft_take_bypass(struct sedge_spacecraft *spacecraft, uint8_t *map, uint8_t *out,
                                                 size_t room, size_t *count);

/* Queues a packet to be sent as telemetry (132.0-B-3, 4.2.2). Returns 0, or the first of SEDGE_TM_NOT_A_PACKET (the
 * octets are not exactly one packet, or are an idle one) and SEDGE_TM_MEMORY. */
SEDGE_CHECK uint8_t sedge_spacecraft_telemetry(struct sedge_spacecraft *spacecraft, const uint8_t *packet,
                                               size_t count);

/* Writes the next telemetry frame (132.0-B-3, 4.1), which reports on the receiver, and the number of its octets, which
 * is frame_length. Returns 0 or SEDGE_NODE_ROOM. */
SEDGE_CHECK uint8_t sedge_spacecraft_telemetry_frame(struct sedge_spacecraft *spacecraft, uint8_t *out, size_t room,
                                                     size_t *count);

/* What sedge_spacecraft_read writes. */
struct sedge_spacecraft_reading {
    size_t frame_length; /* the length of a telemetry frame in octets */
    size_t ready;        /* how many packets of sequence-controlled frames wait to be taken */
    size_t bypassed;     /* how many bypass packets wait to be taken */
    uint8_t status;      /* the fields of the CLCW that the next frame carries, as in struct sedge_clcw */
    uint8_t vcid;
    uint8_t flags;
    uint8_t farm_b;
    uint8_t value;
    uint8_t state;       /* the receiver's state, of sedge_farm_mode */
    uint8_t mc_count;    /* the next frame's count on the master channel */
    uint8_t vc_count;    /* the next frame's count on the virtual channel */
};

/* Reads the spacecraft: the length of a telemetry frame, how many packets wait, the CLCW that the next frame carries,
 * that frame's counts, and the receiver's state. The spacecraft does not change. Returns 0. */
uint8_t sedge_spacecraft_read(struct sedge_spacecraft *spacecraft, struct sedge_spacecraft_reading *read);

/* Opens a spacecraft that continues with what sedge_spacecraft_read wrote before a deliberate restart: V(R) (in value),
 * farm_b, and the telemetry frame counts. The other fields are not read. The receiver is Open with no flag set, and no
 * packet is on board. Replaces a spacecraft as sedge_spacecraft_open does. Returns 0, SEDGE_NODE_OUT_OF_RANGE (also if
 * farm_b is above 3) or SEDGE_NODE_MEMORY. */
SEDGE_CHECK uint8_t sedge_spacecraft_open_kept(struct sedge_spacecraft *spacecraft, const struct sedge_config *config,
                                               const struct sedge_spacecraft_reading *kept);

/* ---- The commander: a ground whose commands are executed on board once and in order, over restarts of both ends at any
 * moment (docs/COMMANDING.md). On board, the program keeps a struct sedge_log (sedgechisel.h). ---- */

/* Why a commander refuses a call, and what its calls return otherwise. */
enum sedge_ledger_fault {
    SEDGE_LEDGER_LAYOUT = 1,        /* not the number of octets of a status */
    SEDGE_LEDGER_CHECK = 2,         /* the check of a status does not hold, or a field has a value that the layout does
                                     * not allow */
    SEDGE_LEDGER_FIELD_RANGE = 3,   /* a MAP is not open, an APID or a sequence count is out of range, or the octets
                                     * are too many for a packet */
    SEDGE_LEDGER_TOO_LONG = 4,      /* the packet would be longer than the configured maximum */
    SEDGE_LEDGER_NO_NUMBER = 5,     /* all numbers have been given */
    SEDGE_LEDGER_NOT_LOST = 6,      /* the board has not lost its record */
    SEDGE_LEDGER_NO_BOOT = 7,       /* no boot count is left for an order that brings a record */
    SEDGE_LEDGER_OWING = 8,         /* something must be stored or reported first */
    SEDGE_LEDGER_MEMORY = 9,        /* out of memory */
    SEDGE_LEDGER_ROOM = 252,        /* the output is too short; nothing was taken */
    SEDGE_LEDGER_ABSENT = 253,      /* this is not the next action or the number of octets that are due, the command
                                     * has a fate or was not given, or the octets are not a CLCW */
    SEDGE_LEDGER_OUT_OF_RANGE = 254 /* a parameter or a setting is out of range */
};

/* What the program does next: it does this whole before it calls sedge_commander_next again. */
enum sedge_commander_action_kind {
    SEDGE_COMMANDER_NOTHING = 0,     /* nothing, until something arrives or a tick passes */
    SEDGE_COMMANDER_STORE = 1,       /* append the octets of sedge_commander_unstored to the store, make sure that they
                                      * are there, and then call sedge_commander_stored */
    SEDGE_COMMANDER_EXECUTED = 2,    /* report that the command was executed, whole, and then call
                                      * sedge_commander_told */
    SEDGE_COMMANDER_UNKNOWN = 3,     /* report that nothing is known of the command: its execution may have begun. It is
                                      * not executed later. Then call sedge_commander_told */
    SEDGE_COMMANDER_RESTARTED = 4,   /* report that the board has restarted, and then call sedge_commander_told */
    SEDGE_COMMANDER_RECORD_LOST = 5, /* report that the board has lost its record, and then call sedge_commander_told.
                                      * The board executes nothing until an operator calls sedge_commander_rebuild */
    SEDGE_COMMANDER_FOREIGN = 6,     /* report that the board has passed these numbers, and that their commands are not
                                      * this store's; then call sedge_commander_told */
    SEDGE_COMMANDER_ALERT = 7,       /* nothing need be done: the sender has given up, and the commander begins another
                                      * session by itself */
    SEDGE_COMMANDER_TELEMETRY = 8,   /* call sedge_commander_take_telemetry */
    SEDGE_COMMANDER_SEND = 9         /* send the frame at the beginning of the buffer */
};

/* The progress of a command without a fate, by COP-1. */
enum sedge_progress {
    SEDGE_PROGRESS_WAITS = 0,   /* not all of it has been sent */
    SEDGE_PROGRESS_SENT = 1,    /* all of it has been sent */
    SEDGE_PROGRESS_ON_BOARD = 2 /* all of it is acknowledged */
};

/* A handle that holds a commander, or none. One rule applies: the program does what sedge_commander_next writes, whole,
 * before it calls sedge_commander_next again. Between the two it makes no other call of the commander than those below.
 * So a program looks like the following, where append returns once the octets are in the store, report tells the user,
 * and octets has room for action.count octets:
 *
 *     uint8_t out[SEDGE_PACKET_LONGEST];
 *     struct sedge_commander_action action;
 *     size_t count;
 *     while (!sedge_commander_next(&commander, &action, out, sizeof out) && action.kind != SEDGE_COMMANDER_NOTHING)
 *         switch (action.kind) {
 *         case SEDGE_COMMANDER_STORE:
 *             if (sedge_commander_unstored(&commander, octets, sizeof octets, &count)) stop();
 *             append(octets, count);
 *             if (sedge_commander_stored(&commander, count)) stop();
 *             break;
 *         case SEDGE_COMMANDER_SEND: send(out, action.count); break;
 *         case SEDGE_COMMANDER_TELEMETRY:
 *             if (sedge_commander_take_telemetry(&commander, out, sizeof out, &count)) stop();
 *             break;
 *         case SEDGE_COMMANDER_ALERT: break;
 *         default:
 *             report(&action);
 *             if (sedge_commander_told(&commander, &action)) stop();
 *         } */
struct sedge_commander {
    void *node;
};

/* Closes the commander, if there is one; the handle then holds none. */
void sedge_commander_close(struct sedge_commander *commander);

/* The settings of a mission. */
struct sedge_mission {
    uint32_t round_trip; /* the longest time in ticks from sending a frame to the arrival of a CLCW and of a status
                          * that were both made after the frame arrived */
    uint16_t orders;     /* the APID of orders, 0 to 2,046 */
    uint16_t status;     /* the APID of the board's status */
    uint8_t map;         /* the MAP of orders, one that is open */
    uint8_t holds;       /* 1 if sending stops after a restart of the board, or the loss of its record, until
                          * sedge_commander_go_on is called, otherwise 0. The first status of a board counts as a
                          * restart. No pause is stored */
};

/* Opens a commander, with a ground in S6, from the octets of its store; a new store has none. The commander replaces
 * any that the handle holds, as sedge_ground_open does. Writes how many octets of the store are good: truncate the
 * store to this length before you append to it. Returns 0, SEDGE_LEDGER_OUT_OF_RANGE (a parameter, or holds), or the
 * first that applies of SEDGE_LEDGER_FIELD_RANGE (the MAP of orders is not open, or their APID is above 2,046),
 * SEDGE_LEDGER_TOO_LONG (part or max_packet is below 23) and SEDGE_LEDGER_MEMORY. */
SEDGE_CHECK uint8_t sedge_commander_open(struct sedge_commander *commander, const struct sedge_config *config,
                                         const struct sedge_mission *mission, const uint8_t *store,
                                         size_t store_count, size_t *good);

/* Gives the commander a command, after all others, and writes its number. The commander writes the command packet; apid
 * and sequence are its APID and its sequence count, and content the mission's octets. tag is the caller's own: give
 * each command another one, because reports carry only the tag. Returns 0, or the first that applies of
 * SEDGE_LEDGER_FIELD_RANGE (a MAP that is not open, an APID above 2,046, a sequence count above 16,383, or more than
 * 65,528 octets), SEDGE_LEDGER_TOO_LONG, SEDGE_LEDGER_NO_NUMBER and SEDGE_LEDGER_MEMORY. */
SEDGE_CHECK uint8_t sedge_commander_command(struct sedge_commander *commander, uint64_t tag, uint8_t map,
                                            uint16_t apid, uint16_t sequence, const uint8_t *content,
                                            size_t content_count, uint32_t *number);

/* Takes octets that came from the board, exactly one telemetry frame, and writes what they are, as
 * sedge_ground_telemetry does. sedge_commander_take_telemetry then takes its packets. Returns 0 or
 * SEDGE_LEDGER_MEMORY. */
SEDGE_CHECK uint8_t sedge_commander_telemetry(struct sedge_commander *commander, const uint8_t *octets, size_t count,
                                              struct sedge_heard *heard);

/* Takes a CLCW that came by itself, and writes what becomes of it, as sedge_ground_clcw does. Returns 0, or
 * SEDGE_LEDGER_ABSENT if the octets are not four. */
SEDGE_CHECK uint8_t sedge_commander_clcw(struct sedge_commander *commander, const uint8_t *octets, size_t count,
                                         struct sedge_heard *heard);

/* Takes the octets of a status that came without a packet. (sedge_commander_take_telemetry takes those in telemetry by
 * itself.) A status that contains nothing new changes nothing. Returns 0, or the first that applies of
 * SEDGE_LEDGER_LAYOUT (not 27 octets), SEDGE_LEDGER_CHECK and SEDGE_LEDGER_MEMORY. */
SEDGE_CHECK uint8_t sedge_commander_status(struct sedge_commander *commander, const uint8_t *octets, size_t count);

/* Counts a tick of the clock. An alert is the next action of sedge_commander_next. Returns 0. */
uint8_t sedge_commander_tick(struct sedge_commander *commander);

/* The next action of a commander's program. The note of a field begins with the kinds for which the field is set,
 * without SEDGE_COMMANDER_; for all others it is 0. */
struct sedge_commander_action {
    uint64_t tag;    /* EXECUTED, UNKNOWN: the tag of the command */
    uint32_t number; /* RESTARTED: the new boot count. RECORD_LOST: the mark of the loss. FOREIGN: the first number */
    uint32_t last;   /* FOREIGN: the last number */
    size_t count;    /* STORE: the number of octets to be appended. SEND: the length of the frame in octets */
    uint8_t kind;    /* of sedge_commander_action_kind */
    uint8_t alert;   /* ALERT: of sedge_alert */
};

/* Writes the program's next action. The program completes it before it calls this again. A frame is written to the
 * beginning of out, whose other octets stay. Returns 0, or the first that applies of SEDGE_LEDGER_ROOM (the buffer is
 * shorter than 1,024 octets) and SEDGE_LEDGER_MEMORY. */
SEDGE_CHECK uint8_t sedge_commander_next(struct sedge_commander *commander, struct sedge_commander_action *action,
                                         uint8_t *out, size_t room);

/* Writes the octets that must be appended to the store, and their number; 0 octets unless sedge_commander_next writes
 * STORE, with this number. Returns 0 or SEDGE_LEDGER_ROOM. */
SEDGE_CHECK uint8_t sedge_commander_unstored(struct sedge_commander *commander, uint8_t *out, size_t room,
                                             size_t *count);

/* Records that all octets of sedge_commander_unstored are in the store; count is their number. Call nothing else of the
 * commander between the two: a command or a status adds octets. Returns 0, or changes nothing and returns
 * SEDGE_LEDGER_ABSENT if this is not the number of octets that are due: if octets were appended, open the commander
 * from the store again. */
SEDGE_CHECK uint8_t sedge_commander_stored(struct sedge_commander *commander, size_t count);

/* Records that this action of sedge_commander_next, EXECUTED, UNKNOWN, RESTARTED, RECORD_LOST or FOREIGN, was reported
 * to the user. After RESTARTED and RECORD_LOST the session ends. Returns 0, or the first that applies of
 * SEDGE_LEDGER_ABSENT (it is not the next action) and SEDGE_LEDGER_MEMORY. */
SEDGE_CHECK uint8_t sedge_commander_told(struct sedge_commander *commander,
                                         const struct sedge_commander_action *action);

/* Writes the length in octets of the oldest telemetry packet, 7 to 65,542, or 0 if none waits. Returns 0. */
uint8_t sedge_commander_next_telemetry(struct sedge_commander *commander, size_t *count);

/* Takes the oldest telemetry packet. Writes it and the number of its octets, or 0 octets if none waits. If it has the
 * APID of the board's status and 27 octets of data, the commander also takes it as a status. Returns 0, or the first
 * that applies of SEDGE_LEDGER_ROOM and SEDGE_LEDGER_MEMORY. */
SEDGE_CHECK uint8_t sedge_commander_take_telemetry(struct sedge_commander *commander, uint8_t *out, size_t room,
                                                   size_t *count);

/* Writes the progress of the command with this number, of sedge_progress, by COP-1 in the current session or, if none
 * is open, the last one. Only EXECUTED of sedge_commander_next states that it was executed. Returns 0, or
 * SEDGE_LEDGER_ABSENT if the command has a fate or was not given. */
SEDGE_CHECK uint8_t sedge_commander_progress(struct sedge_commander *commander, uint32_t number, uint8_t *progress);

/* Stops the submission of commands to the ground until sedge_commander_go_on. The ground still sends the commands that
 * were submitted. Returns 0. */
uint8_t sedge_commander_pause(struct sedge_commander *commander);

/* Resumes the submission of commands. Returns 0. */
uint8_t sedge_commander_go_on(struct sedge_commander *commander);

/* Has the order to restart sent to the board, until a restart of the board or the loss of its record is reported.
 * Returns 0. */
uint8_t sedge_commander_restart_board(struct sedge_commander *commander);

/* Makes the order that brings a record to a board that has lost its own; an operator decides this. Once a status shows
 * that the board obeyed it, each command that was stored by now and has no fate is UNKNOWN, whether or not it was sent.
 * Returns 0, or the first that applies of SEDGE_LEDGER_NOT_LOST, SEDGE_LEDGER_NO_BOOT and SEDGE_LEDGER_MEMORY. */
SEDGE_CHECK uint8_t sedge_commander_rebuild(struct sedge_commander *commander);

/* What sedge_commander_read writes. */
struct sedge_commander_reading {
    uint32_t below;   /* the number up to which every command has its fate */
    uint32_t highest; /* the highest number that was given, or that a command of another ground had on board */
    uint8_t worth;    /* 1 if a fresh store would have less than half as many octets, and nothing is left to be
                       * stored or reported; otherwise 0 */
};

/* Reads the commander: which commands have no fate yet, and whether a fresh store is worth its writing. The commander
 * does not change. Returns 0. */
uint8_t sedge_commander_read(struct sedge_commander *commander, struct sedge_commander_reading *read);

/* Reads the commander's ground, as sedge_ground_read does. Returns 0. */
uint8_t sedge_commander_read_ground(struct sedge_commander *commander, struct sedge_ground_reading *read);

/* Writes the octets of a fresh store of the same commands, and their number; the commander does not change. Write them
 * to a new file, replace the store with it, and call sedge_commander_renewed; append nothing to the store meanwhile. If
 * worth of sedge_commander_read is 1, half the length of the present store is room enough. Returns 0, or the first that
 * applies of SEDGE_LEDGER_OWING (something must be stored or reported first), SEDGE_LEDGER_MEMORY and
 * SEDGE_LEDGER_ROOM. */
SEDGE_CHECK uint8_t sedge_commander_fresh(struct sedge_commander *commander, uint8_t *out, size_t room, size_t *count);

/* Records that the store now has this many octets, which begin with those of sedge_commander_fresh. Returns 0. */
uint8_t sedge_commander_renewed(struct sedge_commander *commander, size_t count);

/* Returns the name of a sedge_ledger_fault of 1 to 9; "?" for another number. */
struct sedge_text sedge_ledger_fault_name(uint8_t number);

/* ---- A simulated link between two nodes, for tests: it keeps the order of the frames in each direction, and loses or
 * damages frames only in ways that the receiver detects. ---- */

/* A handle that holds a simulated link, or none. */
struct sedge_sim {
    void *link;
};

/* Opens a link with two new nodes, which replaces any that the handle holds, as sedge_ground_open does. Returns 0,
 * SEDGE_NODE_OUT_OF_RANGE or SEDGE_NODE_MEMORY. */
SEDGE_CHECK uint8_t sedge_sim_open(struct sedge_sim *sim, const struct sedge_config *config);

/* Closes the link, if there is one; the handle then holds none. */
void sedge_sim_close(struct sedge_sim *sim);

/* Why an event does not happen. */
enum sedge_sim_fault {
    SEDGE_SIM_MEMORY = 6,             /* out of memory */
    SEDGE_SIM_NOTHING_IN_TRANSIT = 7, /* no frame is in transit in this direction */
    SEDGE_SIM_NOT_DETECTABLE = 8      /* the receiver's decoder would accept the octets of the damaged frame */
};

/* Returns the name of a sedge_sim_fault; "?" for another number. */
struct sedge_text sedge_sim_fault_name(uint8_t number);

/* What the link answers to an event. A note ends with the fields of sedge_reply that are set, after the colon. */
enum sedge_reply_kind {
    SEDGE_REPLY_DONE = 0,
    SEDGE_REPLY_NOTHING = 1,    /* there was nothing to send or to take */
    SEDGE_REPLY_LOST = 2,       /* the frame is lost */
    SEDGE_REPLY_REFUSED = 3,    /* a node refused the call: by, fault */
    SEDGE_REPLY_ALERT = 4,      /* the ground's sender has given up: alert */
    SEDGE_REPLY_SENT = 5,       /* the ground sent a frame: count */
    SEDGE_REPLY_REPORTED = 6,   /* the spacecraft sent a frame with a CLCW: report */
    SEDGE_REPLY_UP = 7,         /* the spacecraft received: up */
    SEDGE_REPLY_DOWN = 8,       /* the ground received: down */
    SEDGE_REPLY_PACKET = 9,     /* a packet was taken: map, count */
    SEDGE_REPLY_DOWN_CLCW = 10, /* the ground received a CLCW by itself: down */
    SEDGE_REPLY_RESUMED = 11    /* the ground has resumed: whole */
};

/* The part of a node that refused a call. The note names the enumeration of the refusal's number. */
enum sedge_refused_by {
    SEDGE_BY_NODE = 1,     /* of sedge_node_status */
    SEDGE_BY_SENDER = 2,   /* of sedge_cop_fault */
    SEDGE_BY_TELEMETRY = 3 /* of sedge_tm_fault */
};

/* A reply: its kind, and the fields of that kind; the rest is 0. */
struct sedge_reply {
    size_t count;             /* the number of octets of the frame that was sent, or of the packet */
    uint64_t whole;           /* how many submissions of the ended session are on board whole */
    struct sedge_received up;
    struct sedge_heard down;
    struct sedge_clcw report;
    uint8_t kind;             /* of sedge_reply_kind */
    uint8_t by;               /* of sedge_refused_by */
    uint8_t fault;            /* the number of the refusal, of the enumeration that by selects */
    uint8_t alert;            /* of sedge_alert */
    uint8_t map;              /* the MAP of the packet */
};

/* What may happen: on the ground, to a frame in transit, or on board, as the notes state. A note ends with the fields
 * of sedge_event that are used, after the colon. */
enum sedge_event_kind {
    SEDGE_EVENT_SUBMIT = 1,       /* packets are submitted: map, octets */
    SEDGE_EVENT_BYPASS = 2,       /* a packet is submitted by bypass: map, octets */
    SEDGE_EVENT_DIRECTIVE = 3,    /* the ground is given a directive: directive, value */
    SEDGE_EVENT_SEND = 4,         /* the ground sends a frame */
    SEDGE_EVENT_UP_DELIVER = 5,   /* the first frame in transit on the uplink arrives */
    SEDGE_EVENT_UP_LOSE = 6,      /* it is lost */
    SEDGE_EVENT_UP_DAMAGE = 7,    /* these octets arrive instead, and do not form a valid frame: octets */
    SEDGE_EVENT_REPORT = 8,       /* the spacecraft sends a frame, which reports */
    SEDGE_EVENT_DOWN_DELIVER = 9, /* the first frame in transit on the downlink arrives */
    SEDGE_EVENT_DOWN_LOSE = 10,   /* it is lost */
    SEDGE_EVENT_DOWN_DAMAGE = 11, /* these octets arrive instead, and do not form a valid frame: octets */
    SEDGE_EVENT_TICK = 12,        /* a tick of the ground's clock passes */
    SEDGE_EVENT_TAKE = 13,        /* a packet of sequence-controlled frames is taken on board */
    SEDGE_EVENT_TAKE_BYPASS = 14, /* a bypass packet is taken on board */
    SEDGE_EVENT_TELEMETRY = 15,   /* a packet is queued on board, to be sent as telemetry: octets */
    SEDGE_EVENT_DOWN_CLCW = 16,   /* the first frame in transit on the downlink arrives, and only its CLCW reaches
                                   * the ground */
    SEDGE_EVENT_RESUME = 17       /* the ground resumes after an alert, with a CLCW's value: value */
};

/* An event: its kind, and the fields of that kind; the rest is ignored. But octets must never be null: for a kind
 * without octets, set it to the address of any octet, and count to 0. */
struct sedge_event {
    uint8_t kind;          /* of sedge_event_kind */
    uint8_t map;           /* the MAP */
    uint8_t directive;     /* of sedge_directive */
    uint16_t value;        /* the directive's value, as for sedge_ground_directive; or the value of the CLCW with
                            * which the ground resumes, 0 to 255 */
    const uint8_t *octets; /* where the octets begin */
    size_t count;          /* the number of octets */
};

/* The layout that the proved archives expect; their addresses have 64 bits. */
typedef char sedge_event_is_laid_out[sizeof(uint8_t *) < 8 || (offsetof(struct sedge_event, map) == 1 &&
                                                               offsetof(struct sedge_event, directive) == 2 &&
                                                               offsetof(struct sedge_event, value) == 4 &&
                                                               offsetof(struct sedge_event, octets) == 8 &&
                                                               offsetof(struct sedge_event, count) == 16 &&
                                                               sizeof(struct sedge_event) == 24)
                                         ? 1
                                         : -1];

/* Lets an event happen. Returns 0 and writes the reply; a node's refusal is a reply too. Returns a number of
 * sedge_sim_fault if nothing happens; it is not SEDGE_SIM_MEMORY for a directive, a resumption, a loss, damage, a CLCW
 * by itself, a tick or a take. Returns SEDGE_NODE_NONE also for a number that is not a kind, for a directive and a
 * value for which sedge_ground_directive returns it, and for a resumption with a value above 255. The octets of a frame
 * that was sent, and of a packet that was taken, can be read until the next event (sedge_sim_octets). */
SEDGE_CHECK uint8_t sedge_sim_step(struct sedge_sim *sim, const struct sedge_event *event, struct sedge_reply *reply);

/* Calls of sedge_sim_step: for an event with octets, for one without, for a directive, and for a resumption of the
 * ground. */
static inline SEDGE_CHECK uint8_t sedge_sim_octets_event(struct sedge_sim *sim, uint8_t kind, uint8_t map,
                                                         const uint8_t *octets, size_t count,
                                                         struct sedge_reply *reply) {
    struct sedge_event event = {kind, map, 0, 0, octets, count};
    return sedge_sim_step(sim, &event, reply);
}
static inline SEDGE_CHECK uint8_t sedge_sim_event(struct sedge_sim *sim, uint8_t kind, struct sedge_reply *reply) {
    struct sedge_event event = {kind, 0, 0, 0, &kind, 0};
    return sedge_sim_step(sim, &event, reply);
}
static inline SEDGE_CHECK uint8_t sedge_sim_directive(struct sedge_sim *sim, uint8_t directive, uint16_t value,
                                                      struct sedge_reply *reply) {
    struct sedge_event event = {SEDGE_EVENT_DIRECTIVE, 0, directive, value, &directive, 0};
    return sedge_sim_step(sim, &event, reply);
}
static inline SEDGE_CHECK uint8_t sedge_sim_resume(struct sedge_sim *sim, uint8_t value, struct sedge_reply *reply) {
    struct sedge_event event = {SEDGE_EVENT_RESUME, 0, 0, value, &value, 0};
    return sedge_sim_step(sim, &event, reply);
}

/* Each event by its name. Up to 0.2 these were calls of the library; now they call sedge_sim_step. */
static inline SEDGE_CHECK uint8_t sedge_sim_init_without_check(struct sedge_sim *sim, struct sedge_reply *reply) {
    return sedge_sim_directive(sim, SEDGE_INIT_WITHOUT_CHECK, 0, reply);
}
static inline SEDGE_CHECK uint8_t sedge_sim_init_with_check(struct sedge_sim *sim, struct sedge_reply *reply) {
    return sedge_sim_directive(sim, SEDGE_INIT_WITH_CHECK, 0, reply);
}
static inline SEDGE_CHECK uint8_t sedge_sim_init_unlock(struct sedge_sim *sim, struct sedge_reply *reply) {
    return sedge_sim_directive(sim, SEDGE_INIT_UNLOCK, 0, reply);
}
static inline SEDGE_CHECK uint8_t sedge_sim_init_set_vr(struct sedge_sim *sim, uint8_t vr, struct sedge_reply *reply) {
    return sedge_sim_directive(sim, SEDGE_INIT_SET_VR, vr, reply);
}
static inline SEDGE_CHECK uint8_t sedge_sim_terminate(struct sedge_sim *sim, struct sedge_reply *reply) {
    return sedge_sim_directive(sim, SEDGE_TERMINATE, 0, reply);
}
static inline SEDGE_CHECK uint8_t sedge_sim_set_vs(struct sedge_sim *sim, uint8_t vs, struct sedge_reply *reply) {
    return sedge_sim_directive(sim, SEDGE_SET_VS, vs, reply);
}
static inline SEDGE_CHECK uint8_t sedge_sim_set_window(struct sedge_sim *sim, uint8_t window,
                                                       struct sedge_reply *reply) {
    return sedge_sim_directive(sim, SEDGE_SET_WINDOW, window, reply);
}
static inline SEDGE_CHECK uint8_t sedge_sim_set_limit(struct sedge_sim *sim, uint8_t limit, struct sedge_reply *reply) {
    return sedge_sim_directive(sim, SEDGE_SET_LIMIT, limit, reply);
}
static inline SEDGE_CHECK uint8_t sedge_sim_set_timer(struct sedge_sim *sim, uint16_t timer,
                                                      struct sedge_reply *reply) {
    return sedge_sim_directive(sim, SEDGE_SET_TIMER, timer, reply);
}
static inline SEDGE_CHECK uint8_t sedge_sim_submit(struct sedge_sim *sim, uint8_t map, const uint8_t *octets,
                                                   size_t count, struct sedge_reply *reply) {
    return sedge_sim_octets_event(sim, SEDGE_EVENT_SUBMIT, map, octets, count, reply);
}
static inline SEDGE_CHECK uint8_t sedge_sim_bypass(struct sedge_sim *sim, uint8_t map, const uint8_t *octets,
                                                   size_t count, struct sedge_reply *reply) {
    return sedge_sim_octets_event(sim, SEDGE_EVENT_BYPASS, map, octets, count, reply);
}
static inline SEDGE_CHECK uint8_t sedge_sim_up_damage(struct sedge_sim *sim, const uint8_t *octets, size_t count,
                                                      struct sedge_reply *reply) {
    return sedge_sim_octets_event(sim, SEDGE_EVENT_UP_DAMAGE, 0, octets, count, reply);
}
static inline SEDGE_CHECK uint8_t sedge_sim_down_damage(struct sedge_sim *sim, const uint8_t *octets, size_t count,
                                                        struct sedge_reply *reply) {
    return sedge_sim_octets_event(sim, SEDGE_EVENT_DOWN_DAMAGE, 0, octets, count, reply);
}
static inline SEDGE_CHECK uint8_t sedge_sim_telemetry(struct sedge_sim *sim, const uint8_t *octets, size_t count,
                                                      struct sedge_reply *reply) {
    return sedge_sim_octets_event(sim, SEDGE_EVENT_TELEMETRY, 0, octets, count, reply);
}
static inline SEDGE_CHECK uint8_t sedge_sim_send(struct sedge_sim *sim, struct sedge_reply *reply) {
    return sedge_sim_event(sim, SEDGE_EVENT_SEND, reply);
}
static inline SEDGE_CHECK uint8_t sedge_sim_up_deliver(struct sedge_sim *sim, struct sedge_reply *reply) {
    return sedge_sim_event(sim, SEDGE_EVENT_UP_DELIVER, reply);
}
static inline SEDGE_CHECK uint8_t sedge_sim_up_lose(struct sedge_sim *sim, struct sedge_reply *reply) {
    return sedge_sim_event(sim, SEDGE_EVENT_UP_LOSE, reply);
}
static inline SEDGE_CHECK uint8_t sedge_sim_report(struct sedge_sim *sim, struct sedge_reply *reply) {
    return sedge_sim_event(sim, SEDGE_EVENT_REPORT, reply);
}
static inline SEDGE_CHECK uint8_t sedge_sim_down_deliver(struct sedge_sim *sim, struct sedge_reply *reply) {
    return sedge_sim_event(sim, SEDGE_EVENT_DOWN_DELIVER, reply);
}
static inline SEDGE_CHECK uint8_t sedge_sim_down_lose(struct sedge_sim *sim, struct sedge_reply *reply) {
    return sedge_sim_event(sim, SEDGE_EVENT_DOWN_LOSE, reply);
}
static inline SEDGE_CHECK uint8_t sedge_sim_down_clcw(struct sedge_sim *sim, struct sedge_reply *reply) {
    return sedge_sim_event(sim, SEDGE_EVENT_DOWN_CLCW, reply);
}
static inline SEDGE_CHECK uint8_t sedge_sim_tick(struct sedge_sim *sim, struct sedge_reply *reply) {
    return sedge_sim_event(sim, SEDGE_EVENT_TICK, reply);
}
static inline SEDGE_CHECK uint8_t sedge_sim_take(struct sedge_sim *sim, struct sedge_reply *reply) {
    return sedge_sim_event(sim, SEDGE_EVENT_TAKE, reply);
}
static inline SEDGE_CHECK uint8_t sedge_sim_take_bypass(struct sedge_sim *sim, struct sedge_reply *reply) {
    return sedge_sim_event(sim, SEDGE_EVENT_TAKE_BYPASS, reply);
}

/* Writes the octets of the last event's frame or packet, and their number, which is the reply's count; or 0 octets if
 * the reply had none. They can be read again. Returns 0 or SEDGE_NODE_ROOM. */
SEDGE_CHECK uint8_t sedge_sim_octets(struct sedge_sim *sim, uint8_t *out, size_t room, size_t *count);

/* How a session began. */
enum sedge_begun {
    SEDGE_BEGUN_NOT = 0, /* no session has begun */
    SEDGE_BEGUN_WITHOUT_CHECK = 1,
    SEDGE_BEGUN_WITH_CHECK = 2,
    SEDGE_BEGUN_UNLOCK = 3,
    SEDGE_BEGUN_SET_VR = 4
};

/* What is known of the link and of its session. Each initiation that the ground accepts begins a session. */
struct sedge_sim_reading {
    size_t outstanding;  /* the number of segments that were submitted and are not acknowledged */
    size_t acknowledged; /* how many of the frames sent, counted from the first, the ground regards as acknowledged */
    uint8_t state;       /* the state of the ground's sender, of sedge_fop_state */
    uint8_t begun;       /* of sedge_begun */
    uint8_t vr;          /* the number of Set V(R) */
    bool clean;          /* the session began with nothing in transit and, if without a CLCW check, with V(R) equal
                          * to V(S) */
    bool idle;           /* the session had an idle start (docs/PROMISES.md) */
    bool confirmed;      /* a CLCW has taken the ground from S4 or S5 to S1 */
};

/* Reads the link: how the session began and how far it is. The link does not change. Returns 0. */
uint8_t sedge_sim_read(struct sedge_sim *sim, struct sedge_sim_reading *read);

/* Reads the link's ground, as sedge_ground_read reads a ground. The link does not change. Returns 0. */
uint8_t sedge_sim_ground_read(struct sedge_sim *sim, struct sedge_ground_reading *read);

/* Reads the link's spacecraft, as sedge_spacecraft_read reads a spacecraft. The link does not change. Returns 0. */
uint8_t sedge_sim_spacecraft_read(struct sedge_sim *sim, struct sedge_spacecraft_reading *read);

/* Writes how many submissions the session has: the calls of sedge_sim_submit that the ground accepted. Returns 0. */
uint8_t sedge_sim_submissions(struct sedge_sim *sim, size_t *count);

/* Writes the MAP of submission k, in order from 0, and the number of its octets. Returns 0, or SEDGE_NODE_ABSENT if
 * there are not that many. */
SEDGE_CHECK uint8_t sedge_sim_submission_length(struct sedge_sim *sim, size_t k, uint8_t *map, size_t *count);

/* Writes the MAP and the octets of submission k, and their number. Returns 0, or the first of SEDGE_NODE_ABSENT and
 * SEDGE_NODE_ROOM. */
SEDGE_CHECK uint8_t sedge_sim_submission(struct sedge_sim *sim, size_t k, uint8_t *map, uint8_t *out, size_t room,
                                         size_t *count);

/* The records of the session. Each is a list of entries, which are octets. */
enum sedge_record {
    SEDGE_SUBMITTED = 1, /* the packets submitted on the MAP */
    SEDGE_DELIVERED = 2, /* the packets that are ready on board on the MAP, taken or not */
    SEDGE_SENT = 3,      /* the data fields of Type-AD frames, in the order in which they were first sent */
    SEDGE_RECEIVED = 4   /* the data fields of Type-AD frames that were accepted on board */
};

/* Writes how many entries a record has, of sedge_record; the MAP matters only for SEDGE_SUBMITTED and SEDGE_DELIVERED.
 * For any other number, writes 0. Returns 0. */
uint8_t sedge_sim_count(struct sedge_sim *sim, uint8_t record, uint8_t map, size_t *entries);

/* Writes how many octets entry k has, counted from 0. Returns 0, or SEDGE_NODE_ABSENT if there are not that many
 * entries. */
SEDGE_CHECK uint8_t sedge_sim_entry_length(struct sedge_sim *sim, uint8_t record, uint8_t map, size_t k, size_t *count);

/* Writes the octets of entry k, and their number. Returns 0, or the first of SEDGE_NODE_ABSENT and SEDGE_NODE_ROOM. */
SEDGE_CHECK uint8_t sedge_sim_entry(struct sedge_sim *sim, uint8_t record, uint8_t map, size_t k, uint8_t *out,
                                    size_t room, size_t *count);

/* ---- The numbers of the enumerations, as constants of an unsigned type. ---- */

#ifndef __cplusplus
#define SEDGE_NODE_OK ((uint8_t)0)
#define SEDGE_NODE_NOT_OPEN ((uint8_t)1)
#define SEDGE_NODE_CLOSED_MAP ((uint8_t)2)
#define SEDGE_NODE_NOT_COMMAND ((uint8_t)3)
#define SEDGE_NODE_TOO_LONG ((uint8_t)4)
#define SEDGE_NODE_QUEUE_FULL ((uint8_t)5)
#define SEDGE_NODE_MEMORY ((uint8_t)6)
#define SEDGE_NODE_NOT_KNOWN ((uint8_t)10)
#define SEDGE_NODE_ROOM ((uint8_t)252)
#define SEDGE_NODE_ABSENT ((uint8_t)253)
#define SEDGE_NODE_OUT_OF_RANGE ((uint8_t)254)
#define SEDGE_NODE_NONE ((uint8_t)255)
#define SEDGE_NO_PARAMETER ((uint8_t)0)
#define SEDGE_PARAMETER_SCID ((uint8_t)1)
#define SEDGE_PARAMETER_VCID ((uint8_t)2)
#define SEDGE_PARAMETER_TM_VCID ((uint8_t)3)
#define SEDGE_PARAMETER_WIDTH ((uint8_t)4)
#define SEDGE_PARAMETER_WINDOW ((uint8_t)5)
#define SEDGE_PARAMETER_LIMIT ((uint8_t)6)
#define SEDGE_PARAMETER_TIMER ((uint8_t)7)
#define SEDGE_PARAMETER_PART ((uint8_t)8)
#define SEDGE_PARAMETER_MAX_PACKET ((uint8_t)9)
#define SEDGE_PARAMETER_MAPS ((uint8_t)10)
#define SEDGE_PARAMETER_READY_SLOTS ((uint8_t)11)
#define SEDGE_PARAMETER_BYPASS_SLOTS ((uint8_t)12)
#define SEDGE_PARAMETER_QUEUE_SLOTS ((uint8_t)13)
#define SEDGE_PARAMETER_FRAME_LENGTH ((uint8_t)14)
#define SEDGE_PARAMETER_BLOCKING ((uint8_t)15)
#define SEDGE_HEARD_INVALID ((uint8_t)1)
#define SEDGE_HEARD_FOREIGN ((uint8_t)2)
#define SEDGE_HEARD_FRAME ((uint8_t)3)
#define SEDGE_HEARD_CLCW ((uint8_t)4)
#define SEDGE_REPORT_USED ((uint8_t)0)
#define SEDGE_REPORT_REFUSED ((uint8_t)1)
#define SEDGE_REPORT_OTHER_CHANNEL ((uint8_t)2)
#define SEDGE_RECEIVED_INVALID ((uint8_t)1)
#define SEDGE_RECEIVED_FOREIGN ((uint8_t)2)
#define SEDGE_RECEIVED_AD ((uint8_t)3)
#define SEDGE_RECEIVED_BD ((uint8_t)4)
#define SEDGE_RECEIVED_BC ((uint8_t)5)
#define SEDGE_LEDGER_LAYOUT ((uint8_t)1)
#define SEDGE_LEDGER_CHECK ((uint8_t)2)
#define SEDGE_LEDGER_FIELD_RANGE ((uint8_t)3)
#define SEDGE_LEDGER_TOO_LONG ((uint8_t)4)
#define SEDGE_LEDGER_NO_NUMBER ((uint8_t)5)
#define SEDGE_LEDGER_NOT_LOST ((uint8_t)6)
#define SEDGE_LEDGER_NO_BOOT ((uint8_t)7)
#define SEDGE_LEDGER_OWING ((uint8_t)8)
#define SEDGE_LEDGER_MEMORY ((uint8_t)9)
#define SEDGE_LEDGER_ROOM ((uint8_t)252)
#define SEDGE_LEDGER_ABSENT ((uint8_t)253)
#define SEDGE_LEDGER_OUT_OF_RANGE ((uint8_t)254)
#define SEDGE_COMMANDER_NOTHING ((uint8_t)0)
#define SEDGE_COMMANDER_STORE ((uint8_t)1)
#define SEDGE_COMMANDER_EXECUTED ((uint8_t)2)
#define SEDGE_COMMANDER_UNKNOWN ((uint8_t)3)
#define SEDGE_COMMANDER_RESTARTED ((uint8_t)4)
#define SEDGE_COMMANDER_RECORD_LOST ((uint8_t)5)
#define SEDGE_COMMANDER_FOREIGN ((uint8_t)6)
#define SEDGE_COMMANDER_ALERT ((uint8_t)7)
#define SEDGE_COMMANDER_TELEMETRY ((uint8_t)8)
#define SEDGE_COMMANDER_SEND ((uint8_t)9)
#define SEDGE_PROGRESS_WAITS ((uint8_t)0)
#define SEDGE_PROGRESS_SENT ((uint8_t)1)
#define SEDGE_PROGRESS_ON_BOARD ((uint8_t)2)
#define SEDGE_SIM_MEMORY ((uint8_t)6)
#define SEDGE_SIM_NOTHING_IN_TRANSIT ((uint8_t)7)
#define SEDGE_SIM_NOT_DETECTABLE ((uint8_t)8)
#define SEDGE_REPLY_DONE ((uint8_t)0)
#define SEDGE_REPLY_NOTHING ((uint8_t)1)
#define SEDGE_REPLY_LOST ((uint8_t)2)
#define SEDGE_REPLY_REFUSED ((uint8_t)3)
#define SEDGE_REPLY_ALERT ((uint8_t)4)
#define SEDGE_REPLY_SENT ((uint8_t)5)
#define SEDGE_REPLY_REPORTED ((uint8_t)6)
#define SEDGE_REPLY_UP ((uint8_t)7)
#define SEDGE_REPLY_DOWN ((uint8_t)8)
#define SEDGE_REPLY_PACKET ((uint8_t)9)
#define SEDGE_REPLY_DOWN_CLCW ((uint8_t)10)
#define SEDGE_REPLY_RESUMED ((uint8_t)11)
#define SEDGE_BY_NODE ((uint8_t)1)
#define SEDGE_BY_SENDER ((uint8_t)2)
#define SEDGE_BY_TELEMETRY ((uint8_t)3)
#define SEDGE_EVENT_SUBMIT ((uint8_t)1)
#define SEDGE_EVENT_BYPASS ((uint8_t)2)
#define SEDGE_EVENT_DIRECTIVE ((uint8_t)3)
#define SEDGE_EVENT_SEND ((uint8_t)4)
#define SEDGE_EVENT_UP_DELIVER ((uint8_t)5)
#define SEDGE_EVENT_UP_LOSE ((uint8_t)6)
#define SEDGE_EVENT_UP_DAMAGE ((uint8_t)7)
#define SEDGE_EVENT_REPORT ((uint8_t)8)
#define SEDGE_EVENT_DOWN_DELIVER ((uint8_t)9)
#define SEDGE_EVENT_DOWN_LOSE ((uint8_t)10)
#define SEDGE_EVENT_DOWN_DAMAGE ((uint8_t)11)
#define SEDGE_EVENT_TICK ((uint8_t)12)
#define SEDGE_EVENT_TAKE ((uint8_t)13)
#define SEDGE_EVENT_TAKE_BYPASS ((uint8_t)14)
#define SEDGE_EVENT_TELEMETRY ((uint8_t)15)
#define SEDGE_EVENT_DOWN_CLCW ((uint8_t)16)
#define SEDGE_EVENT_RESUME ((uint8_t)17)
#define SEDGE_BEGUN_NOT ((uint8_t)0)
#define SEDGE_BEGUN_WITHOUT_CHECK ((uint8_t)1)
#define SEDGE_BEGUN_WITH_CHECK ((uint8_t)2)
#define SEDGE_BEGUN_UNLOCK ((uint8_t)3)
#define SEDGE_BEGUN_SET_VR ((uint8_t)4)
#define SEDGE_SUBMITTED ((uint8_t)1)
#define SEDGE_DELIVERED ((uint8_t)2)
#define SEDGE_SENT ((uint8_t)3)
#define SEDGE_RECEIVED ((uint8_t)4)
#endif

/* ---- Old names of calls, which will be removed after 0.3. ---- */

#define sedge_ground_report sedge_ground_clcw_in
#define sedge_spacecraft_report sedge_spacecraft_telemetry_frame

#ifdef __cplusplus
}
#endif

#endif
