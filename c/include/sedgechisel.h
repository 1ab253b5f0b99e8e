/* Sedgechisel for programs in C: the FECF of frames, telecommand frames, space packets, CLCWs, telemetry frames, the
 * receiver FARM-1, the sender FOP-1, packets in segments, packets in telemetry frames, and the commands of a board over
 * restarts. For C99 and later, and for C++.
 *
 * No call here allocates memory, keeps a state of its own, or calls a function of another library except memcpy,
 * memmove and memset. So a program may make each call anywhere, also from two threads at once if they do not share what
 * they write. Each call does what its contract in crates/ states, for every value of its arguments and of the structs
 * behind its pointers. In the proved archive this is proved; in portable C it is tested. The standards are CCSDS
 * 133.0-B-2 (space packets), 132.0-B-3 (telemetry), 232.0-B-4 (telecommand) and 232.1-B-2 (COP-1).
 *
 * A caller must ensure the following, since nothing can check it:
 * - No pointer is null, and each is aligned for its type; this also holds if the count after the pointer is 0.
 * - The octets at a pointer, as many as the count after it states, may be read; if the pointer is not to const, they
 *   may also be written. The same holds for the struct or the number at a pointer to one. Octets and structs that a
 *   call reads are initialised; octets and structs that it only writes need not be.
 * - What a call writes overlaps nothing else that its arguments point to.
 * - A bool is false or true, as it always is if C or C++ converts it from another value.
 *
 * What calls return:
 * - Most calls return a uint8_t: SEDGE_OK, or the first fault that applies. The fault is a number of the enumeration
 *   that the call's comment names, or of sedge_status, which all calls share. A call that returns a fault has written
 *   nothing. There is one exception: sedge_gap_check_see records the packet even if it returns SEDGE_ABSENT.
 * - In six calls the uint8_t is something other than a fault: a verdict (sedge_farm_ad), a state (sedge_farm_state),
 *   what is sent on the link next (sedge_fop_next), an alert (sedge_fop_clcw, sedge_fop_tick), and what a board does
 *   next (sedge_log_next). If one of these returns SEDGE_ABSENT, SEDGE_WRONG_COUNT or SEDGE_DAMAGED, it has written
 *   nothing. Otherwise it has written what its comment names, whatever it returns.
 * - A bool states whether something holds (sedge_check_holds, sedge_alert_shows_broken_condition), or whether the call
 *   has written (sedge_check_append, sedge_tm_packet, sedge_map_packet). If it is false, nothing is written.
 * - A size_t is a number of frames (sedge_tc_frames, sedge_tm_extractor_frames), a uint16_t the check of octets
 *   (sedge_check), a uint32_t a history (sedge_log_history_after), a struct sedge_text a word, and a struct
 *   sedge_advice a sentence.
 *
 * SEDGE_CHECK marks each call whose result can mean more than that a struct is damaged: gcc and clang warn if a program
 * ignores the result. In C each number of an enumeration is also a constant of an unsigned type, at the end of this
 * file, so that comparing it with a result or a field needs no conversion (docs/REVIEW.md, "MISRA C"). */
#ifndef SEDGECHISEL_H
#define SEDGECHISEL_H

#include <stddef.h>
#include <stdint.h>
#ifndef __cplusplus
#include <stdbool.h>
#endif

#ifdef __cplusplus
extern "C" {
#endif

/* Marks a call whose result must be used: gcc and clang warn if it is not. A program may define it itself. */
#ifndef SEDGE_CHECK
#ifdef __GNUC__
#define SEDGE_CHECK __attribute__((warn_unused_result))
#else
#define SEDGE_CHECK
#endif
#endif

/* The version of this header; sedge_version() returns the version of the library, such as "0.3.0". */
#define SEDGE_VERSION_MAJOR 0
#define SEDGE_VERSION_MINOR 3
#define SEDGE_VERSION_PATCH 0

/* The maximum lengths in octets: of a space packet (133.0-B-2, 4.1), of a telecommand frame (232.0-B-4, 4.1.2.7), of
 * the data of a segment in a telecommand frame with its FECF, and of a telemetry frame (132.0-B-3, 4.1). */
#define SEDGE_PACKET_LONGEST 65542U
#define SEDGE_TC_LONGEST 1024U
#define SEDGE_SEGMENT_LONGEST 1016U
#define SEDGE_TM_LONGEST 2048U

/* A word of at most 19 characters, with zeros after it. To print one, keep it in a variable of your own first:
 *     struct sedge_text name = sedge_verdict_name(verdict);
 *     puts(name.text); */
struct sedge_text {
    char text[20];
};

/* A sentence of at most 159 characters, with zeros after it. Print it as you print a word. */
struct sedge_advice {
    char text[160];
};

/* Returns the version of the library. */
struct sedge_text sedge_version(void);

/* The numbers that all kinds of calls share. */
enum sedge_status {
    SEDGE_OK = 0,
    SEDGE_ABSENT = 253,      /* there is no such segment or action, no earlier packet of the APID, or a CLCW states
                              * nothing about the units */
    SEDGE_WRONG_COUNT = 254, /* not the number of octets that the call needs */
    SEDGE_DAMAGED = 255      /* a struct has a value that no sender, receiver or MAP can have, or one outside its
                              * enumeration */
};

/* The position of data in the octets that were read: count octets, the first at octets + from. */
struct sedge_part {
    size_t from;
    size_t count;
};

/* ---- The check, a CRC of 16 bits that frames have as their FECF: generator x^16 + x^12 + x^5 + 1, register preset to
 * ones, no inversion at the end (232.0-B-4, 4.1.4.2; 132.0-B-3, 4.1.6.2). ---- */

/* Returns the check of the octets. */
uint16_t sedge_check(const uint8_t *octets, size_t count);

/* Sets the last two octets to the check of those before them, and returns true. For fewer than two octets, returns
 * false and writes nothing. */
SEDGE_CHECK bool sedge_check_append(uint8_t *octets, size_t count);

/* Returns whether the last two octets are the check of those before them; false for fewer than two octets (232.0-B-4,
 * 4.1.4.3). */
SEDGE_CHECK bool sedge_check_holds(const uint8_t *octets, size_t count);

/* ---- The communications link control word (CLCW), of four octets (232.0-B-4, 4.2). ---- */

/* Why a CLCW is refused. */
enum sedge_clcw_fault {
    SEDGE_CLCW_KIND = 1,    /* the control word type is not 0 (4.2.1.2) */
    SEDGE_CLCW_VERSION = 2, /* the version number is not 00 (4.2.1.3) */
    SEDGE_CLCW_COP = 3,     /* the COP in effect is not 01, COP-1 (4.2.1.5) */
    SEDGE_CLCW_SPARE = 4,   /* a spare bit is not 0 */
    SEDGE_CLCW_RANGE = 5    /* a field is too large for its bits, or a flag bit has no name */
};

/* The flags of a CLCW, as bits of sedge_clcw.flags (4.2.1.8). */
enum sedge_clcw_flags {
    SEDGE_CLCW_RETRANSMIT = 0x08,  /* frames must be retransmitted, from the report value on */
    SEDGE_CLCW_WAIT = 0x10,        /* there is no room for a further frame */
    SEDGE_CLCW_LOCKOUT = 0x20,     /* the receiver is in its state Lockout */
    SEDGE_CLCW_NO_BIT_LOCK = 0x40, /* the receiver has no bit lock */
    SEDGE_CLCW_NO_RF = 0x80        /* the radio frequency channel is not available */
};

/* A CLCW. Its flags are of sedge_clcw_flags. */
struct sedge_clcw {
    uint8_t status; /* the status field, 3 bits, which is carried and not interpreted */
    uint8_t vcid;   /* the virtual channel that the CLCW reports on, 6 bits */
    uint8_t flags;  /* the flags */
    uint8_t farm_b; /* the FARM-B counter, 2 bits */
    uint8_t value;  /* the report value, V(R) of the receiver */
};

/* Reads four octets as a CLCW of any virtual channel: compare its vcid with your own before you use its value or its
 * flags (sedge_fop_clcw does so itself). Returns 0, or the first of 1 to 4 of sedge_clcw_fault that applies, or
 * SEDGE_WRONG_COUNT if the octets are not four. */
SEDGE_CHECK uint8_t sedge_clcw_decode(const uint8_t *octets, size_t count, struct sedge_clcw *word);

/* Writes a CLCW as four octets. Returns 0, SEDGE_CLCW_RANGE, or SEDGE_WRONG_COUNT if the buffer is not four octets
 * long. */
SEDGE_CHECK uint8_t sedge_clcw_encode(const struct sedge_clcw *word, uint8_t *out, size_t room);

/* ---- The receiver FARM-1 of one virtual channel (232.1-B-2, section 6). Pass it only the frames of its own spacecraft
 * and channel: compare scid and vcid of each frame with your own first, since no call here sees them. ---- */

/* Why a call of the receiver or of the sender is refused. */
enum sedge_cop_fault {
    SEDGE_COP_WIDTH = 1,      /* the window width is not an even number from 2 to 254 */
    SEDGE_COP_WINDOW = 2,     /* the sender's window K is not from 1 to half the width */
    SEDGE_COP_LIMIT = 3,      /* the transmission limit is 0 */
    SEDGE_COP_TIMER = 4,      /* the timer's value is 0 */
    SEDGE_COP_NOT_OPEN = 6,   /* the sender is in its state S6 */
    SEDGE_COP_BUSY = 7,       /* a unit is already waiting */
    SEDGE_COP_WRONG_STATE = 8 /* the directive is not allowed in the sender's state */
};

/* What the receiver does with a Type-AD frame. */
enum sedge_verdict {
    SEDGE_ACCEPTED = 0, /* the expected frame: its data is passed on, and V(R) increases by 1 */
    SEDGE_AHEAD = 1,    /* in the positive window, ahead of V(R): discarded, and a retransmission is requested */
    SEDGE_NO_BUFFER = 2, /* the expected frame, but no room for it: discarded, and a retransmission is requested */
    SEDGE_BEHIND = 3,   /* in the negative window: a repetition, discarded */
    SEDGE_OUTSIDE = 4,  /* outside both windows: discarded, and the receiver is locked */
    SEDGE_DISCARDED = 5 /* discarded because of the state */
};

/* The receiver's state (6.1.2). */
enum sedge_farm_mode {
    SEDGE_FARM_OPEN = 0,   /* S1: frames are accepted */
    SEDGE_FARM_WAIT = 1,   /* S2: there was no room for a frame; a release opens the receiver again */
    SEDGE_FARM_LOCKOUT = 2 /* S3: a number outside both windows arrived; only Unlock opens the receiver again */
};

/* A receiver, which the caller keeps. Begin it with sedge_farm_open; its fields may be read at any time. Each call
 * checks that a receiver can have these fields: the width is even, 2 to 254; the flags are 0 or 1; the retransmit flag
 * is 1 if the wait flag is; FARM-B is 0 to 3. If it cannot, the call returns SEDGE_DAMAGED and changes nothing. */
struct sedge_farm {
    uint8_t width;      /* the width of both windows together; each is half of it */
    uint8_t vr;         /* V(R), the number of the next frame to be accepted */
    uint8_t lockout;    /* the flags, 0 or 1 */
    uint8_t wait;
    uint8_t retransmit;
    uint8_t farm_b;     /* FARM-B, the count of Type-B frames modulo 4 */
};

/* Begins a receiver in state Open, with all flags 0 and FARM-B 0, that expects the number vr. Returns 0, or
 * SEDGE_COP_WIDTH. */
SEDGE_CHECK uint8_t sedge_farm_open(struct sedge_farm *farm, uint8_t width, uint8_t vr);

/* Judges a Type-AD frame whose number N(S) is n; buffer_free states whether there is room for its data. Returns the
 * verdict, of sedge_verdict, or SEDGE_DAMAGED. If the verdict is SEDGE_ACCEPTED, pass on the frame's data. */
SEDGE_CHECK uint8_t sedge_farm_ad(struct sedge_farm *farm, uint8_t n, bool buffer_free);

/* Counts a Type-BD frame; pass on its data in every state. Returns 0, or SEDGE_DAMAGED. */
uint8_t sedge_farm_bd(struct sedge_farm *farm);

/* Executes the control command Unlock. Returns 0, or SEDGE_DAMAGED. */
uint8_t sedge_farm_unlock(struct sedge_farm *farm);

/* Executes the control command Set V(R); in Lockout it is only counted in FARM-B, and V(R) does not change. Returns 0,
 * or SEDGE_DAMAGED. */
uint8_t sedge_farm_set_vr(struct sedge_farm *farm, uint8_t vr);

/* Records that there is room on board again. Returns 0, or SEDGE_DAMAGED. */
uint8_t sedge_farm_released(struct sedge_farm *farm);

/* Writes the CLCW (232.0-B-4, 4.2) that reports the receiver's present state for the virtual channel vcid; the flags
 * for the radio channel and bit lock are 0. Returns 0, or SEDGE_DAMAGED, or SEDGE_CLCW_RANGE if vcid is not below
 * 64. */
SEDGE_CHECK uint8_t sedge_farm_control_word(const struct sedge_farm *farm, uint8_t vcid, struct sedge_clcw *word);

/* Returns the receiver's state, of sedge_farm_mode, or SEDGE_DAMAGED. */
SEDGE_CHECK uint8_t sedge_farm_state(const struct sedge_farm *farm);

/* ---- The sender FOP-1 of one virtual channel (232.1-B-2, section 5, in the profile of docs/PROFILE.md). ----
 *
 * The sender keeps numbers; its caller keeps the units, which are the data of frames. At most one unit waits to be sent
 * for the first time. The units that were sent and are not acknowledged, at most 127, have the numbers from NN(R) to
 * V(S) - 1, modulo 256. So 256 slots, one for each number, are always enough:
 *
 *     static struct unit waiting, sent[256];
 *     ...
 *     if (sedge_fop_submit(&fop) == SEDGE_OK) waiting = unit;
 *     ...
 *     uint8_t number;
 *     switch (sedge_fop_next(&fop, &number)) {
 *     case SEDGE_NEXT_UNLOCK: send_unlock(); break;
 *     case SEDGE_NEXT_SET_VR: send_set_vr(number); break;
 *     case SEDGE_NEXT_FIRST: sent[number] = waiting; send_ad(number, &sent[number]); break;
 *     case SEDGE_NEXT_AGAIN: send_ad(number, &sent[number]); break;
 *     }
 *     ...
 *     uint8_t released;
 *     uint8_t alert = sedge_fop_clcw(&fop, CHANNEL, &word, &released);
 *
 * A CLCW acknowledges the oldest units sent, as many as sedge_fop_clcw writes to released; their slots may be used
 * again. An alert (from a CLCW, from a tick, or by sedge_fop_terminate) discards all units, including the one that
 * waits; nothing else does. After an alert, sedge_fop_accepted_beyond shows from a later CLCW which of the units sent
 * were accepted on board. ---- */

/* The sender's state (5.1.2). */
enum sedge_fop_state {
    SEDGE_FOP_S1 = 1, /* active */
    SEDGE_FOP_S2 = 2, /* retransmit without wait */
    SEDGE_FOP_S3 = 3, /* retransmit with wait */
    SEDGE_FOP_S4 = 4, /* initialising without a control command */
    SEDGE_FOP_S5 = 5, /* initialising with a control command */
    SEDGE_FOP_S6 = 6  /* initial */
};

/* The control command of S5, and whether it must be sent. */
enum sedge_control {
    SEDGE_CONTROL_IDLE = 0, /* none, as in all other states */
    SEDGE_CONTROL_UNLOCK_DUE = 1,
    SEDGE_CONTROL_UNLOCK_SENT = 2,
    SEDGE_CONTROL_SET_VR_DUE = 3,
    SEDGE_CONTROL_SET_VR_SENT = 4
};

/* Why the sender has given up (5.2.5). */
enum sedge_alert {
    SEDGE_NO_ALERT = 0,
    SEDGE_ALERT_LOCKOUT = 1,   /* a CLCW has the lockout flag */
    SEDGE_ALERT_NNR = 2,       /* a CLCW's value is not from NN(R) to V(S) */
    SEDGE_ALERT_CLCW = 3,      /* a CLCW has the wait flag without the retransmit flag */
    SEDGE_ALERT_SYNCH = 4,     /* a CLCW requests retransmission when there is nothing to retransmit, or no longer
                                * requests it before anything was acknowledged */
    SEDGE_ALERT_LIMIT = 5,     /* a CLCW requests retransmission, and the transmission limit is 1 */
    SEDGE_ALERT_TIMER = 6,     /* the timer has expired, and nothing may be sent again */
    SEDGE_ALERT_TERMINATED = 7 /* sedge_fop_terminate */
};

/* What is to be sent on the link next. */
enum sedge_next {
    SEDGE_NEXT_NOTHING = 0,
    SEDGE_NEXT_UNLOCK = 1, /* the control command Unlock, in a Type-BC frame */
    SEDGE_NEXT_SET_VR = 2, /* the control command Set V(R) with the number, in a Type-BC frame */
    SEDGE_NEXT_FIRST = 3,  /* the unit that waits, in a Type-AD frame with the number; keep it under that number */
    SEDGE_NEXT_AGAIN = 4   /* the unit kept under the number, in a Type-AD frame with that number */
};

/* A sender, which the caller keeps. Begin it with sedge_fop_open; its fields may be read at any time. Each call checks
 * that a sender can have these fields. If it cannot, the call returns SEDGE_DAMAGED and changes nothing. The
 * conditions:
 * - each field is in its range below; V(S) - NN(R), modulo 256, is at most room, and in S1 to S5 it is equal to sent;
 * - sent is 0 except in S1 to S3, and at least 1 in S2 and S3; in S6 no unit waits;
 * - the timer runs in S1 to S3 exactly while sent is above 0, in S4 always, and in S5 once the command is sent; in S6
 *   it is off;
 * - only S5 has a control command, and always one; the number of Set V(R) is V(S).
 * The transmission count may be any number from 1. A sender with such fields always continues: while it awaits a CLCW,
 * the timer runs or a command is due. */
struct sedge_fop {
    uint16_t timer;  /* the timer's value in ticks, at least 1 */
    uint16_t ticks;  /* the ticks that are left while the timer runs, or 0 while it is off */
    uint8_t room;    /* half the receiver's window width, 1 to 127: the maximum number of units sent and not
                      * acknowledged */
    uint8_t state;   /* of sedge_fop_state */
    uint8_t vs;      /* V(S), the number of the next unit to be sent for the first time */
    uint8_t nn;      /* NN(R), the number that the receiver was last known to expect */
    uint8_t waiting; /* whether a unit waits to be sent for the first time, 0 or 1 */
    uint8_t sent;    /* the number of units sent and not acknowledged, at most room */
    uint8_t due;     /* how many of these, the last ones, are due to be retransmitted */
    uint8_t window;  /* the window K, 1 to room */
    uint8_t limit;   /* the transmission limit, at least 1 */
    uint8_t count;   /* the transmission count, at least 1 */
    uint8_t control; /* of sedge_control */
    uint8_t vr;      /* the number of the control command Set V(R), or 0 if there is no such command */
};

/* Begins a sender in state S6 with V(S) = NN(R) = 0, for a receiver of this window width, with the window K, the
 * transmission limit and the timer's value in ticks. Returns 0, or the first of SEDGE_COP_WIDTH (not even, 2 to 254),
 * SEDGE_COP_WINDOW (not 1 to half the width), SEDGE_COP_LIMIT (0) and SEDGE_COP_TIMER (0). */
SEDGE_CHECK uint8_t sedge_fop_open(struct sedge_fop *fop, uint8_t width, uint8_t window, uint8_t limit, uint16_t timer);

/* The directives (5.2.4). Each note states what the directive does, and after the semicolon the fault that is returned
 * if it is refused, and in which case. The calls by name are generated from these notes, in each language. */
enum sedge_directive {
    SEDGE_INIT_WITHOUT_CHECK = 1, /* initiate without CLCW check: S6 to S1; SEDGE_COP_WRONG_STATE unless in S6 */
    SEDGE_INIT_WITH_CHECK = 2,    /* initiate with CLCW check: S6 to S4, until a CLCW agrees; SEDGE_COP_WRONG_STATE
                                   * unless in S6 */
    SEDGE_INIT_UNLOCK = 3,        /* initiate with Unlock: S6 to S5, and Unlock is sent; SEDGE_COP_WRONG_STATE unless in
                                   * S6 */
    SEDGE_INIT_SET_VR = 4,        /* initiate with Set V(R): S6 to S5, V(S) and NN(R) are set to value, and Set V(R) is
                                   * sent; SEDGE_COP_WRONG_STATE unless in S6 */
    SEDGE_TERMINATE = 5,          /* terminate: to S6 with the alert Terminated, which discards all units;
                                   * SEDGE_COP_WRONG_STATE in S6 */
    SEDGE_SET_VS = 6,             /* set both V(S) and NN(R) to value; SEDGE_COP_WRONG_STATE unless in S6 */
    SEDGE_SET_WINDOW = 7,         /* set the window K to value; SEDGE_COP_WINDOW unless it is 1 to half the receiver's
                                   * window width */
    SEDGE_SET_LIMIT = 8,          /* set the transmission limit to value; SEDGE_COP_LIMIT if it is 0 */
    SEDGE_SET_TIMER = 9           /* set the timer to value, in ticks; SEDGE_COP_TIMER if it is 0 */
};

/* Gives the sender a directive, of sedge_directive, with its value; a directive without a value ignores it. Returns 0,
 * or SEDGE_COP_WRONG_STATE, or for a value out of range SEDGE_COP_WINDOW, SEDGE_COP_LIMIT or SEDGE_COP_TIMER. Returns
 * SEDGE_DAMAGED also for a number that is not a directive, and for a V(R) or V(S) above 255. */
SEDGE_CHECK uint8_t sedge_fop_directive(struct sedge_fop *fop, uint8_t directive, uint16_t value);

/* Each directive by its name. Up to 0.2 these were calls of the library; now they call sedge_fop_directive. */
static inline SEDGE_CHECK uint8_t sedge_fop_init_without_check(struct sedge_fop *fop) {
    return sedge_fop_directive(fop, SEDGE_INIT_WITHOUT_CHECK, 0);
}
static inline SEDGE_CHECK uint8_t sedge_fop_init_with_check(struct sedge_fop *fop) {
    return sedge_fop_directive(fop, SEDGE_INIT_WITH_CHECK, 0);
}
static inline SEDGE_CHECK uint8_t sedge_fop_init_unlock(struct sedge_fop *fop) {
    return sedge_fop_directive(fop, SEDGE_INIT_UNLOCK, 0);
}
static inline SEDGE_CHECK uint8_t sedge_fop_init_set_vr(struct sedge_fop *fop, uint8_t vr) {
    return sedge_fop_directive(fop, SEDGE_INIT_SET_VR, vr);
}
static inline SEDGE_CHECK uint8_t sedge_fop_terminate(struct sedge_fop *fop) {
    return sedge_fop_directive(fop, SEDGE_TERMINATE, 0);
}
static inline SEDGE_CHECK uint8_t sedge_fop_set_vs(struct sedge_fop *fop, uint8_t vs) {
    return sedge_fop_directive(fop, SEDGE_SET_VS, vs);
}
static inline SEDGE_CHECK uint8_t sedge_fop_set_window(struct sedge_fop *fop, uint8_t window) {
    return sedge_fop_directive(fop, SEDGE_SET_WINDOW, window);
}
static inline SEDGE_CHECK uint8_t sedge_fop_set_limit(struct sedge_fop *fop, uint8_t limit) {
    return sedge_fop_directive(fop, SEDGE_SET_LIMIT, limit);
}
static inline SEDGE_CHECK uint8_t sedge_fop_set_timer(struct sedge_fop *fop, uint16_t timer) {
    return sedge_fop_directive(fop, SEDGE_SET_TIMER, timer);
}

/* Submits a unit to be sent under sequence control. The unit waits, and the caller keeps it. Returns 0, or
 * SEDGE_DAMAGED, or SEDGE_COP_NOT_OPEN in S6, or SEDGE_COP_BUSY while another unit waits. */
SEDGE_CHECK uint8_t sedge_fop_submit(struct sedge_fop *fop);

/* Takes what is to be sent on the link next. Returns what this is, of sedge_next, and writes its number, or 0 if it has
 * none; or returns SEDGE_DAMAGED, with nothing written. */
SEDGE_CHECK uint8_t sedge_fop_next(struct sedge_fop *fop, uint8_t *number);

/* Takes a CLCW for the sender of the virtual channel vcid. The call compares this number with the CLCW's vcid; the
 * caller has already compared the scid of the telemetry frame that carried the CLCW. Returns the alert, of sedge_alert,
 * and writes how many units are acknowledged, the oldest of those sent. Writes and changes nothing, and returns
 * SEDGE_ABSENT if the CLCW reports on another channel, or else SEDGE_DAMAGED if a struct is damaged. */
SEDGE_CHECK uint8_t sedge_fop_clcw(struct sedge_fop *fop, uint8_t vcid, const struct sedge_clcw *word,
                                   uint8_t *released);

/* Counts a tick of the clock. Returns the alert, of sedge_alert, or SEDGE_DAMAGED. */
SEDGE_CHECK uint8_t sedge_fop_tick(struct sedge_fop *fop);

/* Writes how many of the units that were sent and not acknowledged were accepted on board when a CLCW with this value
 * was made: the oldest ones, with the numbers from NN(R) to value - 1 (5.1). The call still does so after an alert,
 * until V(S) is set or an initiation begins. But it uses only the numbers: after an alert that shows a broken
 * condition, nothing is known of these units, whatever it writes. If V(S) is NN(R), there are no such units, and it
 * writes 0 for every value. Returns 0, or SEDGE_DAMAGED, or, with nothing written, SEDGE_ABSENT if V(S) is not NN(R)
 * and the value does not lie from NN(R) to V(S): nothing is then known of these units. */
SEDGE_CHECK uint8_t sedge_fop_accepted_beyond(const struct sedge_fop *fop, uint8_t value, uint8_t *accepted);

/* Writes what sedge_fop_accepted_beyond writes for a sender with this NN(R) and this V(S). Returns 0, or SEDGE_ABSENT
 * if nothing is known. */
SEDGE_CHECK uint8_t sedge_accepted_beyond(uint8_t nn, uint8_t vs, uint8_t value, uint8_t *accepted);

/* ---- Telecommand transfer frames of at most 1,024 octets (232.0-B-4, 4.1), with or without their FECF. ---- */

/* Why a telecommand frame is refused. */
enum sedge_tc_fault {
    SEDGE_TC_SHORT = 1,         /* fewer than the 5 octets of the header */
    SEDGE_TC_VERSION = 2,       /* the version number is not 00 (4.1.2.2) */
    SEDGE_TC_RESERVED_TYPE = 3, /* the control command flag without the bypass flag (4.1.2.3) */
    SEDGE_TC_SPARE = 4,         /* the spare bits are not 00 (4.1.2.4) */
    SEDGE_TC_LENGTH = 5,        /* the declared total is not the number of octets, or is too small (4.1.2.7) */
    SEDGE_TC_CHECK = 6,         /* the last two octets are not the check of those before them (4.1.4) */
    SEDGE_TC_BYPASS_NUMBER = 7, /* a frame with the bypass flag has a number other than 0 (4.1.2.8) */
    SEDGE_TC_EMPTY_DATA = 8,    /* no octet in the data field, or only a segment header */
    SEDGE_TC_COMMAND = 9,       /* the data of a control frame are neither Unlock nor Set V(R) (4.1.3.3) */
    SEDGE_TC_ROOM = 10,         /* there is too little room for the frame */
    SEDGE_TC_FIELD_RANGE = 11   /* a field out of range, no data, or more than 1,024 octets */
};

/* The frame type (4.1.2.3). */
enum sedge_tc_kind {
    SEDGE_TC_AD = 0, /* sequence-controlled data */
    SEDGE_TC_BD = 1, /* data that bypass the sequence control */
    SEDGE_TC_BC = 2  /* a control command, which bypasses it too */
};

/* The position of a segment in what it is a part of (4.1.3.2.2.2). */
enum sedge_segment_flags {
    SEDGE_SEGMENT_CONTINUING = 0,
    SEDGE_SEGMENT_FIRST = 1,
    SEDGE_SEGMENT_LAST = 2,
    SEDGE_SEGMENT_ALONE = 3
};

/* The control commands (4.1.3.3). */
enum sedge_command {
    SEDGE_UNLOCK = 0, /* end a lockout: the octet 00 */
    SEDGE_SET_VR = 1  /* expect this number next: the octets 82 00 and the number */
};

/* A frame without its data. A kind of frame has only some of these fields: reading a frame sets the others to 0, and
 * writing one ignores them. */
struct sedge_tc_frame {
    uint16_t scid;   /* the spacecraft identifier, below 1,024 */
    uint8_t vcid;    /* the virtual channel identifier, below 64 */
    uint8_t kind;    /* of sedge_tc_kind */
    uint8_t n;       /* Type-AD: the sequence number N(S) */
    uint8_t flags;   /* Type-AD and Type-BD: of sedge_segment_flags */
    uint8_t map;     /* Type-AD and Type-BD: the MAP identifier, below 64 */
    uint8_t command; /* Type-BC: of sedge_command */
    uint8_t vr;      /* Type-BC, Set V(R): the number */
};

/* Reads all of the octets as one frame, which ends with its FECF if checked is true. Writes the frame's fields, and
 * where the data after the segment header are: {0, 0} for a control frame, which has none. The frame may be of any
 * spacecraft and virtual channel: compare scid and vcid with your own before you pass the frame to a receiver. Returns
 * 0, or the first of 1 to 9 of sedge_tc_fault that applies. */
SEDGE_CHECK uint8_t sedge_tc_decode(const uint8_t *octets, size_t count, bool checked, struct sedge_tc_frame *frame,
                                    struct sedge_part *data);

/* Writes the frame with these data (ignored for a control frame) to the beginning of out, with its FECF if checked is
 * true. Writes the frame's length in octets, 6 to 1,024, to total. Returns 0, or the first of SEDGE_DAMAGED (the kind,
 * the segment flags or the command is not in its enumeration), SEDGE_TC_FIELD_RANGE and SEDGE_TC_ROOM. */
SEDGE_CHECK uint8_t sedge_tc_encode(const struct sedge_tc_frame *frame, const uint8_t *data, size_t data_count,
                                    bool checked, uint8_t *out, size_t room, size_t *total);

/* Reads the length of the frame that begins with these octets from its first 5 octets, and writes it to total; use it
 * to cut a stream (4.1.2.7). Returns 0, or SEDGE_TC_SHORT for fewer than 5 octets, or SEDGE_TC_LENGTH if the frame
 * declares fewer than 5 octets, or with its FECF fewer than 7. */
SEDGE_CHECK uint8_t sedge_tc_declared(const uint8_t *octets, size_t count, bool checked, size_t *total);

/* Reads the frames that follow one another in the octets, each as long as it declares (4.1.2.7), and writes a record of
 * 12 octets for each to out, in order. A record begins with the number of the frame's octets and the number that
 * sedge_tc_decode returns for the frame. Then come the scid, vcid, kind, n, flags, map, command and vr that it writes,
 * or 0 for each if it refuses the frame. The number of octets and the scid take two octets each, the lower one first;
 * the others take one. The data of a Type-AD or Type-BD frame begin 6 octets after the frame does. Stops when out has
 * no room for a record, or when no whole frame follows; sedge_tc_declared, called with the octets there, shows whether
 * their length is refused. Writes the number of octets of all these frames to total. Returns the number of frames. */
size_t sedge_tc_frames(const uint8_t *octets, size_t count, bool checked, uint8_t *out, size_t room, size_t *total);

/* ---- Space packets of 7 to 65,542 octets (133.0-B-2, 4.1). ---- */

/* Why a space packet is refused. */
enum sedge_packet_fault {
    SEDGE_PACKET_TRUNCATED = 1,           /* fewer than the 6 octets of the header, or fewer than it declares */
    SEDGE_PACKET_VERSION = 2,             /* the version number is not 000 (4.1.3.2) */
    SEDGE_PACKET_IDLE_WITH_SECONDARY = 3, /* an idle packet with a secondary header (4.1.3.3.3) */
    SEDGE_PACKET_ROOM = 4,                /* there is too little room for the packet */
    SEDGE_PACKET_FIELD_RANGE = 5 /* a field out of range, no data or more than 65,536 octets of them, or an idle
                                  * packet with a secondary header */
};

/* The packet type (4.1.3.3.2). */
enum sedge_packet_kind {
    SEDGE_PACKET_TELEMETRY = 0,
    SEDGE_PACKET_TELECOMMAND = 1
};

/* The position of a packet's data in what the user sends (4.1.3.4.2). */
enum sedge_sequence_flags {
    SEDGE_SEQUENCE_CONTINUATION = 0,
    SEDGE_SEQUENCE_FIRST = 1,
    SEDGE_SEQUENCE_LAST = 2,
    SEDGE_SEQUENCE_UNSEGMENTED = 3
};

/* A packet without its data field. */
struct sedge_packet {
    uint16_t apid;     /* the application process identifier, below 2,048; idle packets have 2,047 (4.1.3.3.4) */
    uint16_t count;    /* the sequence count or the packet's name, below 16,384 (4.1.3.4.3) */
    uint8_t kind;      /* of sedge_packet_kind */
    uint8_t secondary; /* whether the data field begins with a secondary header, 0 or 1 (4.1.3.3.3) */
    uint8_t flags;     /* the sequence flags, of sedge_sequence_flags (4.1.3.4.2) */
};

/* Reads the packet at the beginning of the octets, and writes its fields and where its data field is. The packet ends
 * with its data field, and octets after it are ignored. Returns 0, or the first of 1 to 3 of sedge_packet_fault that
 * applies; the declared length (SEDGE_PACKET_TRUNCATED) is checked last. */
SEDGE_CHECK uint8_t sedge_packet_decode(const uint8_t *octets, size_t count, struct sedge_packet *packet,
                                        struct sedge_part *data);

/* Writes the packet with this data field to the beginning of out, and its length in octets, 6 more than its data have,
 * to total. Returns 0, or the first of SEDGE_DAMAGED (the kind is not in its enumeration, or the secondary header flag
 * is above 1), SEDGE_PACKET_FIELD_RANGE and SEDGE_PACKET_ROOM. */
SEDGE_CHECK uint8_t sedge_packet_encode(const struct sedge_packet *packet, const uint8_t *data, size_t data_count,
                                        uint8_t *out, size_t room, size_t *total);

/* Reads the length of the packet that begins with these octets from its first 6 octets, and writes it to total; use it
 * to cut a stream (4.1.3.5). Returns 0, or SEDGE_PACKET_TRUNCATED for fewer than 6 octets, or SEDGE_PACKET_VERSION, or
 * SEDGE_PACKET_IDLE_WITH_SECONDARY. */
SEDGE_CHECK uint8_t sedge_packet_declared(const uint8_t *octets, size_t count, size_t *total);

/* A check for gaps in the sequence counts of all application processes, which shows missing packets (133.0-B-2,
 * 4.1.3.4.3). Begin it with sedge_gap_check_open; its field may be read at any time. */
struct sedge_gap_check {
    uint16_t last[2048]; /* the last count that was seen, by APID; above 16,383 if no packet of the APID was seen */
};

/* Begins a check of sequence counts that has seen no packet. */
void sedge_gap_check_open(struct sedge_gap_check *check);

/* Records a packet of this APID with this count, as sedge_packet_decode writes them, and writes the number of packets
 * missing before it to missing: (count - last - 1) modulo 16,384. Returns 0, or SEDGE_ABSENT for the first packet of
 * the APID, which is recorded too, or SEDGE_PACKET_FIELD_RANGE if apid is not below 2,048 or count not below 16,384. */
SEDGE_CHECK uint8_t sedge_gap_check_see(struct sedge_gap_check *check, uint16_t apid, uint16_t count,
                                        uint16_t *missing);

/* ---- Telemetry transfer frames of 16 to 2,048 octets, with an operational control field and an FECF (132.0-B-3,
 * 4.1). ---- */

/* Why a telemetry frame, or a packet for one, is refused. */
enum sedge_tm_fault {
    SEDGE_TM_LENGTH = 1,      /* not as many octets as length, or a length outside 16 to 2,048 */
    SEDGE_TM_VERSION = 2,     /* the version number is not 00 (4.1.2.2) */
    SEDGE_TM_CHECK = 3,       /* the last two octets are not the check of those before them (4.1.6) */
    SEDGE_TM_STATUS = 4,      /* a flag of the data field status is 1, or its identifier is not 11 (4.1.2.7) */
    SEDGE_TM_POINTER = 5,     /* a first header pointer at or after the data field's end (4.1.2.7.6) */
    SEDGE_TM_NO_OCF = 6,      /* the frame declares no operational control field (4.1.2.4) */
    SEDGE_TM_MEMORY = 7,      /* out of memory for what would be kept */
    SEDGE_TM_NOT_A_PACKET = 8, /* not exactly one packet, or an idle packet */
    SEDGE_TM_ROOM = 9,        /* there is too little room for the frame */
    SEDGE_TM_FIELD_RANGE = 10 /* a field out of range, a pointer after the data, not 4 to 2,036 octets of data, or
                               * a length outside 16 to 2,048 */
};

/* The first header pointers that do not point to a packet (4.1.2.7.6). */
enum sedge_pointer {
    SEDGE_POINTER_ONLY_IDLE = 2046, /* the data field contains only idle data */
    SEDGE_POINTER_NO_START = 2047   /* no packet starts in the data field */
};

/* A frame without its data. */
struct sedge_tm_frame {
    uint16_t scid;    /* the spacecraft identifier, below 1,024 */
    uint16_t pointer; /* the place in the data, from 0, where the first packet starts, or one of sedge_pointer */
    uint8_t vcid;     /* the virtual channel identifier, below 8 */
    uint8_t mc_count; /* the master channel frame count */
    uint8_t vc_count; /* the virtual channel frame count */
    uint8_t ocf[4];   /* the operational control field, as sedge_clcw_encode writes it (4.1.5) */
};

/* Reads all of the octets as one frame of this length, and writes its fields and where its data are. The frame may be
 * of any spacecraft and virtual channel: compare scid and vcid with your own before you pass it to an extractor, and
 * scid before you use its CLCW. Returns 0, or the first of 1 to 6 of sedge_tm_fault. */
SEDGE_CHECK uint8_t sedge_tm_decode(const uint8_t *octets, size_t count, size_t length, struct sedge_tm_frame *frame,
                                    struct sedge_part *data);

/* Writes the frame with these data and its FECF to the beginning of out, and its length in octets, 12 more than its
 * data have, to total. Returns 0, or the first of SEDGE_TM_FIELD_RANGE and SEDGE_TM_ROOM. */
SEDGE_CHECK uint8_t sedge_tm_encode(const struct sedge_tm_frame *frame, const uint8_t *data, size_t data_count,
                                    uint8_t *out, size_t room, size_t *total);

/* ---- Packets in telemetry frames, for one virtual channel (132.0-B-3, 4.2 and 4.3): built into frames and extracted
 * from them. The caller keeps the struct and its memory; no two structs may use the same memory. ---- */

/* A builder of the frames of one virtual channel, all of one length. Begin it with sedge_tm_builder_open; its fields
 * may be read at any time. The memory holds the octets that are to be sent: the rest of the packet that was begun, and
 * then the packets that are queued. Each call checks that a builder can have these fields, and that these octets are in
 * the memory. sedge_tm_builder_build also checks that the octets that its frame takes are whole packets. If a check
 * fails, the call returns SEDGE_DAMAGED and changes nothing. No call reads the packets that wait after those octets. */
struct sedge_tm_builder {
    size_t from;        /* where the octets that are to be sent are in the memory */
    size_t count;       /* the number of octets that are to be sent */
    size_t begun;       /* how many of these, the first ones, are left of the packet that was begun */
    uint16_t scid;      /* the spacecraft identifier, below 1,024 */
    uint16_t length;    /* the length of a frame in octets, 16 to 2,048 */
    uint8_t vcid;       /* the virtual channel identifier, below 8 */
    uint8_t next_count; /* the frame count of the next frame, on the master and on the virtual channel */
    uint8_t idle_left;  /* the number of octets left of an idle packet, at most 6, which are sent first */
};

/* Begins a builder with frame counts of 0 and nothing to be sent. Returns 0, or SEDGE_TM_FIELD_RANGE if scid is not
 * below 1,024, vcid not below 8, or length not from 16 to 2,048. */
SEDGE_CHECK uint8_t sedge_tm_builder_open(struct sedge_tm_builder *builder, uint16_t scid, uint8_t vcid, size_t length);

/* Queues a packet, given by all of its octets, after the octets that are already to be sent; those are not read.
 * Returns 0, or the first of SEDGE_DAMAGED (no builder has the numbers of the struct, or its octets are not in the
 * memory), SEDGE_TM_NOT_A_PACKET (not exactly one packet, or an idle one) and SEDGE_TM_MEMORY (the octets to be sent
 * and the packet do not fit in the memory). */
SEDGE_CHECK uint8_t sedge_tm_builder_queue(struct sedge_tm_builder *builder, const uint8_t *packet, size_t count,
                                           uint8_t *memory, size_t room);

/* Writes the next frame to the beginning of out, with this operational control field, as sedge_clcw_encode writes it,
 * and its length, which is the builder's frame length, to total. If packets run out within the frame, an idle packet
 * fills it; if nothing is to be sent, it has only idle data. Returns 0, or the first of SEDGE_DAMAGED (as for
 * sedge_tm_builder_queue, or the octets that this frame takes are not whole packets), SEDGE_WRONG_COUNT (the field is
 * not four octets) and SEDGE_TM_ROOM. */
SEDGE_CHECK uint8_t sedge_tm_builder_build(struct sedge_tm_builder *builder, const uint8_t *ocf, size_t ocf_count,
                                           const uint8_t *memory, size_t memory_count, uint8_t *out, size_t room,
                                           size_t *total);

/* An extractor of the packets of one virtual channel. Initialise it to {0, 0, 0, 0}; its fields may be read at any
 * time. The beginning of a packet that has not ended is called the part; the memory holds it. After a frame that ends
 * such a packet, the memory holds the whole packet too. The memory is large enough if it has as many octets as the
 * longest packet (idle packets included) and the data of a frame together. 67,578 octets are enough for all packets. A
 * call returns SEDGE_DAMAGED if seen is above 1, if the part is not in the memory, or if there is a part although no
 * frame was seen. */
struct sedge_tm_extractor {
    size_t from;  /* where the part is in the memory */
    size_t count; /* the number of octets of the part, or 0 if there is none */
    uint8_t last; /* the virtual channel frame count of the last frame, if one was seen */
    uint8_t seen; /* whether a frame was seen, 0 or 1 */
};

/* What became of a frame: the packets whose last octets it contains, except idle ones. If one of them began in an
 * earlier frame, it is the first, and is at the beginning of the memory. The packets after it are in the frame's
 * data. */
struct sedge_tm_extracted {
    size_t joined;             /* the length of the packet at the beginning of the memory, or 0 if there is none */
    struct sedge_part packets; /* where sedge_tm_packet begins in the frame's data */
    uint8_t first;             /* whether this is the first frame, 0 or 1 */
    uint8_t lost;              /* the number of frames missing before it, modulo 256, or 0 for the first (4.1.2.6) */
};

/* Takes the next frame that arrived from the spacecraft on the virtual channel: its fields and its data, as
 * sedge_tm_decode writes them. Use its packets before the next call:
 *
 *     if (extracted.joined > 0) use_packet(memory, extracted.joined);
 *     struct sedge_part packet = extracted.packets;
 *     while (sedge_tm_packet(data, data_count, &packet)) use_packet(data + packet.from, packet.count);
 *
 * If frames are missing, the part before them is dropped. Returns 0, or the first of SEDGE_DAMAGED,
 * SEDGE_TM_FIELD_RANGE (the pointer is after the data) and SEDGE_TM_MEMORY (the packet that the frame ends and the part
 * that it leaves do not fit in the memory). A refused frame counts as missing when the next one arrives. */
SEDGE_CHECK uint8_t sedge_tm_extractor_frame(struct sedge_tm_extractor *extractor, const struct sedge_tm_frame *frame,
                                             const uint8_t *data, size_t data_count, uint8_t *memory, size_t room,
                                             struct sedge_tm_extracted *extracted);

/* Finds the next packet that is not idle after this part of a frame's data. Returns true and writes where that packet
 * is; or returns false and writes nothing if there is none. */
SEDGE_CHECK bool sedge_tm_packet(const uint8_t *data, size_t data_count, struct sedge_part *packet);

/* Takes the frames of this length that follow one another in the octets, each as sedge_tm_decode and then
 * sedge_tm_extractor_frame take it. Writes a record of 19 octets for each frame to out, in order. A record begins with
 * the number of octets of the frame's packets (four octets, the lowest one first), and the first fault of these two
 * calls, or 0. Then come first, lost and dropped, one octet each; dropped is 1 if a packet that was begun and is not
 * idle is dropped, and otherwise 0. The record ends with the frame's fields: the scid and the pointer (two octets each,
 * the lower one first), the vcid, mc_count, vc_count and ocf. These fields are 0 if the octets do not form a valid
 * frame. Writes the packets of all these frames to packets, one after another: sedge_map_packet finds where each
 * begins. Stops when out has no room for a record, when packets has no room for as many octets as the memory and a
 * frame have together, or when no whole frame follows. Takes no frame if the length is 0. Writes the number of octets
 * of all these packets to total. Returns the number of frames. */
size_t sedge_tm_extractor_frames(struct sedge_tm_extractor *extractor, const uint8_t *octets, size_t count,
                                 size_t frame_length, uint8_t *memory, size_t memory_room, uint8_t *out,
                                 size_t out_room, uint8_t *packets, size_t packets_room, size_t *total);

/* ---- Packets in segments, for one MAP (232.0-B-4, 4.1.3.2.2), with blocking or without it. ---- */

/* Why octets of a MAP are dropped. A note with a colon states first what is dropped, and then why. sedge_map_take
 * drops octets for the causes from 2 on, a node (sedgechisel_nodes.h) for all of them. */
enum sedge_dropped {
    SEDGE_NOT_DROPPED = 0,
    SEDGE_DROPPED_CLOSED_MAP = 1,   /* the segment: its MAP is not open */
    SEDGE_DROPPED_INTERRUPTED = 2,  /* the open part: a segment flagged first or alone came before its last one */
    SEDGE_DROPPED_NO_BEGINNING = 3, /* the segment: it continues or ends a packet, and no part is open */
    SEDGE_DROPPED_NOT_A_PACKET = 4, /* a joined part is not exactly one packet, or a segment flagged alone is not one,
                                     * or with blocking not one or more whole packets */
    SEDGE_DROPPED_TOO_LONG = 5      /* a joined part or a segment flagged alone, or with blocking a packet in such a
                                     * segment, has more octets than the memory */
};

/* The position of the packets that are now whole. */
enum sedge_where {
    SEDGE_NO_PACKET = 0,
    SEDGE_IN_MEMORY = 1, /* one packet, the first octets of the memory */
    SEDGE_IN_DATA = 2    /* the segment's data: one packet, or with blocking one or more, one after another, at most
                          * 145 (1,016 / 7) whatever the sender's limits */
};

/* A MAP on board. The caller keeps it, and its memory of as many octets as the longest packet may have. Initialise it
 * to {0, 0, 0}, or with blocking to {0, 0, 1}; with blocking, an alone segment may hold several whole packets. The
 * first octets of the memory are the open part, the beginning of a packet that is not whole yet. A call returns
 * SEDGE_DAMAGED if a flag is above 1, if count is above the number of octets of the memory, or if count is above 0
 * although no part is open. */
struct sedge_map {
    size_t count;     /* the number of octets of the open part, or 0 if none is open */
    uint8_t open;     /* whether a part is open, 0 or 1 */
    uint8_t blocking; /* whether a segment may hold several whole packets, 0 or 1 */
};

/* What became of a segment. If a part was interrupted, there may be packets too. */
struct sedge_taken {
    size_t count;    /* the number of octets of all the packets together, or 0 if there are none */
    uint8_t where;   /* of sedge_where */
    uint8_t dropped; /* of sedge_dropped; if octets were dropped for two causes, the later one */
};

/* Takes the next segment of the MAP: its flags, of sedge_segment_flags, and its data. Before the next call, pass on the
 * packets that are whole now. Returns 0, or SEDGE_DAMAGED, also for flags above 3. */
SEDGE_CHECK uint8_t sedge_map_take(struct sedge_map *map, uint8_t flags, const uint8_t *data, size_t data_count,
                                   uint8_t *memory, size_t room, struct sedge_taken *taken);

/* Finds the packet that follows this part of the octets; begin with {0, 0}. Returns true and writes where that packet
 * is; or returns false and writes nothing if there is none. */
SEDGE_CHECK bool sedge_map_packet(const uint8_t *octets, size_t count, struct sedge_part *packet);

/* Why octets are not cut into segments. */
enum sedge_map_fault {
    SEDGE_MAP_NOT_A_PACKET = 1, /* not exactly one packet, or with blocking not one or more whole packets */
    SEDGE_MAP_TOO_LONG = 2      /* a packet has more octets than max_packet */
};

/* How a sender cuts packets. A call returns SEDGE_DAMAGED if part is 0 or blocking is above 1. */
struct sedge_limits {
    uint32_t part;       /* the maximum length of a segment's data in octets, at least 1 */
    uint32_t max_packet; /* the maximum length of a packet in octets */
    uint8_t blocking;    /* whether packets that together have at most part octets go into one segment, 0 or 1 */
};

/* Writes the number of segments of one packet, or with blocking of one or more packets, one after another. Returns 0,
 * or SEDGE_DAMAGED, or the first of sedge_map_fault that applies. */
SEDGE_CHECK uint8_t sedge_map_count(const uint8_t *octets, size_t count, const struct sedge_limits *limits,
                                    size_t *segments);

/* Writes segment k, counted from 0, of the segments that sedge_map_count counts: its flags, of sedge_segment_flags, and
 * where its data are in the octets. Each call starts from the first packet, so with blocking the time for all segments
 * of n packets grows as n * n. Returns what sedge_map_count does, or SEDGE_ABSENT if there are fewer segments. */
SEDGE_CHECK uint8_t sedge_map_segment(const uint8_t *octets, size_t count, const struct sedge_limits *limits,
                                      size_t k, uint8_t *flags, struct sedge_part *data);

/* ---- Commands that are executed at most once and in order on board, over restarts at any moment (docs/PROFILE.md,
 * "Commands that are executed once"). ---- */

/* Why octets of a board's commands are refused, or the board drops a command or an order. */
enum sedge_log_fault {
    SEDGE_LOG_LAYOUT = 1,       /* not exactly one packet of this layout, or not the layout's number of octets */
    SEDGE_LOG_CHECK = 2,        /* the check does not hold, or a field has a value that the layout does not allow */
    SEDGE_LOG_STARTING = 3,     /* the board has started, and a copy of its record is being repaired */
    SEDGE_LOG_BUSY = 4,         /* the record is being written, a command is being executed, or a restart is due */
    SEDGE_LOG_LOST = 5,         /* the board has lost its record */
    SEDGE_LOG_BEHIND = 6,       /* a command with this number was executed or passed over */
    SEDGE_LOG_AHEAD = 7,        /* the command's number is above the next one */
    SEDGE_LOG_OTHER_BOOT = 8,   /* the order is for a different boot count */
    SEDGE_LOG_NOT_LOST = 9,     /* the order brings a record, but the board still has its own */
    SEDGE_LOG_OTHER_MARK = 10,  /* the order brings a record for another loss */
    SEDGE_LOG_FIELD_RANGE = 11, /* a field is out of range, or the data are too long */
    SEDGE_LOG_ROOM = 12         /* the output is too short for the packet */
};

/* What the program does next. */
enum sedge_log_action {
    SEDGE_LOG_NOTHING = 0,      /* nothing: a command or an order may be passed in */
    SEDGE_LOG_WRITE_FIRST = 1,  /* write the octets at the first place */
    SEDGE_LOG_WRITE_SECOND = 2, /* write the octets at the second place */
    SEDGE_LOG_EXECUTE = 3,      /* execute the command that was taken last */
    SEDGE_LOG_RESTART = 4       /* restart: an order was obeyed */
};

/* What a status states. */
enum sedge_log_status_kind {
    SEDGE_LOG_STATUS_SAYS = 0,    /* the record, as it is at both places */
    SEDGE_LOG_STATUS_CHANGES = 1, /* the record is being written: the previous status holds */
    SEDGE_LOG_STATUS_STARTS = 2,  /* the board has just started: the previous status holds */
    SEDGE_LOG_STATUS_LOST = 3     /* the board has lost its record */
};

/* What an order demands. */
enum sedge_log_order_kind {
    SEDGE_LOG_ORDER_RESTART = 1, /* the board with this boot count restarts */
    SEDGE_LOG_ORDER_REBUILD = 2  /* the board that has lost its record, with this mark, gets this record */
};

/* The lengths in octets of a record at one place, of a status and of an order; and how many octets a command packet has
 * in addition to the mission's. */
#define SEDGE_LOG_RECORD_OCTETS 50U
#define SEDGE_LOG_STATUS_OCTETS 27U
#define SEDGE_LOG_ORDER_OCTETS 23U
#define SEDGE_LOG_COMMAND_OVERHEAD 14U

/* What a board keeps about its commands, at two places in memory that survives restarts. */
struct sedge_log_record {
    uint64_t known;   /* a bit for each of the 64 numbers up to last, the lowest bit for last: 1 if it is known that
                       * the command was executed completely */
    uint32_t boot;    /* how often the board has started */
    uint32_t last;    /* the number of the last command that was executed or passed over. Numbers begin at 1 */
    uint32_t history; /* the running check of all commands that were taken since the record was new or was brought by
                       * an order */
    uint8_t begun;    /* whether the next command is begun, 0 or 1 */
};

/* The state of a board's commands: begin it with sedge_log_start. One rule applies: the program completes the action
 * that sedge_log_next returns, and calls sedge_log_done, before it calls sedge_log_next again. So a program looks like
 * the following, where first and second are the octets of the two places, mark is a mark of this start, and
 * wait_and_offer calls sedge_log_offer, or sedge_log_obey for an order:
 *
 *     uint8_t octets[SEDGE_LOG_RECORD_OCTETS];
 *     uint32_t number;
 *     sedge_log_start(&log, first, sizeof first, second, sizeof second, mark);
 *     for (;;) {
 *         uint8_t action = sedge_log_next(&log, octets, sizeof octets, &number);
 *         switch (action) {
 *         case SEDGE_LOG_WRITE_FIRST:  write_place(0, octets); break;
 *         case SEDGE_LOG_WRITE_SECOND: write_place(1, octets); break;
 *         case SEDGE_LOG_EXECUTE:      execute(number, content); break;
 *         case SEDGE_LOG_RESTART:      restart(); break;
 *         default:                     wait_and_offer(&log); continue;
 *         }
 *         if (sedge_log_done(&log, action, number)) stop();
 *     }
 *
 * A telemetry packet of the mission carries the status (sedge_log_status). The fields are the library's: read them, and
 * do not change them. */
struct sedge_log {
    struct sedge_log_record kept; /* the record as it is at both places, or as it is being written */
    uint32_t mark;                /* the mark of the loss if the record is lost, and 0 otherwise */
    uint8_t stage;                /* the stage, 1 to 8 */
};

/* Starts a board from the octets at the two places of the memory that survives restarts, 50 each. A place with another
 * number of octets, or with octets that are not a valid record, has no record. Pass a different mark at each start,
 * from a clock or at random: it is the mark of this loss if neither place has a record. */
void sedge_log_start(struct sedge_log *log, const uint8_t *first, size_t first_count, const uint8_t *second,
                     size_t second_count, uint32_t mark);

/* Returns the program's next action, of sedge_log_action. The program completes this action and calls sedge_log_done
 * before it calls sedge_log_next again. For a write, out receives the 50 octets of the place; otherwise it does not
 * change. number receives the number of the command to be executed, or 0 for any other action. Writes nothing and
 * returns SEDGE_WRONG_COUNT if the buffer is not 50 octets long, or else SEDGE_DAMAGED if the struct is damaged. */
SEDGE_CHECK uint8_t sedge_log_next(const struct sedge_log *log, uint8_t *out, size_t room, uint32_t *number);

/* Records that the action that sedge_log_next returned, with its number, is complete. Returns 0; or it changes nothing
 * and returns SEDGE_DAMAGED, or else SEDGE_ABSENT if the action or its number is not what sedge_log_next returns. */
SEDGE_CHECK uint8_t sedge_log_done(struct sedge_log *log, uint8_t action, uint32_t number);

/* Takes the octets of a packet that arrived, if it is the next command, and writes where the mission's octets are in
 * them. Keep the mission's octets until the command has been executed, after sedge_log_next has returned
 * SEDGE_LOG_EXECUTE with its number. Returns 0, or else drops the packet, changes and writes nothing, and returns
 * SEDGE_DAMAGED or the first that applies of 1 to 7 of sedge_log_fault: 1 Layout, then 2 Check, then 3 Starting, 4 Busy
 * or 5 Lost, then 6 Behind or 7 Ahead. */
SEDGE_CHECK uint8_t sedge_log_offer(struct sedge_log *log, const uint8_t *octets, size_t count,
                                    struct sedge_part *content);

/* Takes the octets of an order that arrived. An order to restart makes SEDGE_LOG_RESTART the next action. A board that
 * has lost its record continues with the one that the order brings, if the order has the mark of this loss. Returns 0,
 * or else drops the packet, changes nothing, and returns SEDGE_DAMAGED or the first that applies of 1 to 5 and 8 to 10
 * of sedge_log_fault: 1 Layout, then 2 Check; then for a restart 3 Starting, 4 Busy or 5 Lost, and then 8 OtherBoot;
 * for a record 9 NotLost, and then 10 OtherMark. */
SEDGE_CHECK uint8_t sedge_log_obey(struct sedge_log *log, const uint8_t *octets, size_t count);

/* Writes the status for telemetry, 27 octets, with the number of commands that wait on board to be offered; a number
 * above 255 is written as 255. Returns 0, or the first of SEDGE_WRONG_COUNT, if the buffer is not 27 octets long, and
 * SEDGE_DAMAGED. */
SEDGE_CHECK uint8_t sedge_log_status(const struct sedge_log *log, size_t waiting, uint8_t *out, size_t room);

/* Writes the record of a new board, the 50 octets that both places have before the board starts for the first time.
 * Returns 0, or SEDGE_WRONG_COUNT if the buffer is not 50 octets long. */
SEDGE_CHECK uint8_t sedge_log_new_record(uint8_t *out, size_t room);

/* What a status states, on the ground. */
struct sedge_board_status {
    struct sedge_log_record kept; /* the record for SEDGE_LOG_STATUS_SAYS, otherwise zeros */
    uint32_t mark;                /* the mark of the loss for SEDGE_LOG_STATUS_LOST, otherwise 0 */
    uint8_t kind;                 /* of sedge_log_status_kind */
    uint8_t waiting;              /* how many commands wait on board, at most 255 */
};

/* Reads a status that arrived. Returns 0, or the first of 1 to 2 of sedge_log_fault that applies: 1 Layout if the
 * octets are not 27, then 2 Check. */
SEDGE_CHECK uint8_t sedge_log_status_decode(const uint8_t *octets, size_t count, struct sedge_board_status *status);

/* Writes a command packet with this APID, sequence count and number and with the mission's octets to the beginning of
 * out. Writes its length in octets, 14 more than the mission's, to total. Returns 0, or the first of
 * SEDGE_LOG_FIELD_RANGE (the APID is above 2,047, the count above 16,383, the number 0, or the mission's octets are
 * more than 65,528) and SEDGE_LOG_ROOM. */
SEDGE_CHECK uint8_t sedge_log_command_encode(uint16_t apid, uint16_t count, uint32_t number, const uint8_t *content,
                                             size_t content_count, uint8_t *out, size_t room, size_t *total);

/* An order to the board itself. It is sent by bypass (Type-BD). */
struct sedge_log_order {
    uint32_t boot; /* the boot count, of the board that restarts or of the record */
    uint32_t last; /* the last number of the record; 0 for a restart */
    uint32_t mark; /* the mark of the loss; 0 for a restart */
    uint8_t kind;  /* of sedge_log_order_kind */
};

/* Writes an order as a packet with this APID and sequence count to the beginning of out, and its length, 23 octets, to
 * total. Returns 0, or the first of SEDGE_DAMAGED (the kind is not in its enumeration, or a restart has a last number
 * or a mark), SEDGE_LOG_FIELD_RANGE (the APID is above 2,047 or the count above 16,383) and SEDGE_LOG_ROOM. */
SEDGE_CHECK uint8_t sedge_log_order_encode(const struct sedge_log_order *order, uint16_t apid, uint16_t count,
                                           uint8_t *out, size_t room, size_t *total);

/* Returns the history after one more command packet: CRC-32 continued over the packet's check, its last four octets.
 * The history of no packets is 0. A ground can compute it for the packets that it sends, and compare it with a
 * status. */
uint32_t sedge_log_history_after(uint32_t history, const uint8_t *packet, size_t count);

/* ---- Names, as tctool writes them; "?" for a number that is not in the enumeration. ---- */

struct sedge_text sedge_clcw_fault_name(uint8_t fault);   /* the name of a sedge_clcw_fault */
struct sedge_text sedge_cop_fault_name(uint8_t fault);    /* the name of a sedge_cop_fault */
struct sedge_text sedge_verdict_name(uint8_t verdict);    /* the name of a sedge_verdict */
struct sedge_text sedge_alert_name(uint8_t alert);        /* the name of a sedge_alert */
struct sedge_text sedge_tc_fault_name(uint8_t fault);     /* the name of a sedge_tc_fault */
struct sedge_text sedge_packet_fault_name(uint8_t fault); /* the name of a sedge_packet_fault */
struct sedge_text sedge_tm_fault_name(uint8_t fault);     /* the name of a sedge_tm_fault */
struct sedge_text sedge_map_fault_name(uint8_t fault);    /* the name of a sedge_map_fault */
struct sedge_text sedge_dropped_name(uint8_t cause);      /* the name of a sedge_dropped */
struct sedge_text sedge_log_fault_name(uint8_t fault);    /* the name of a sedge_log_fault */

/* ---- What an alert means. ---- */

/* Returns whether a sedge_alert shows a broken condition of the link (README.md): true for SEDGE_ALERT_LOCKOUT,
 * SEDGE_ALERT_NNR, SEDGE_ALERT_CLCW and SEDGE_ALERT_SYNCH. If the session was begun by check, Unlock or Set V(R) and
 * confirmed by a CLCW, a condition was broken: for example, the board restarted, the link reorders or repeats frames,
 * or there is a second station. Otherwise the receiver's earlier state may be the cause. Nothing is then known of what
 * is on board: begin again, as after a reset. Returns false for any other number. After other alerts, the next session
 * can resume where this one ended. */
bool sedge_alert_shows_broken_condition(uint8_t alert);

/* Returns what to look for after a sedge_alert, and how to recover, in words for an operator; "?" for any other
 * number. */
struct sedge_advice sedge_alert_advice(uint8_t alert);

/* ---- The numbers of the enumerations, as constants of an unsigned type. ---- */

#ifndef __cplusplus
#define SEDGE_OK ((uint8_t)0)
#define SEDGE_ABSENT ((uint8_t)253)
#define SEDGE_WRONG_COUNT ((uint8_t)254)
#define SEDGE_DAMAGED ((uint8_t)255)
#define SEDGE_CLCW_KIND ((uint8_t)1)
#define SEDGE_CLCW_VERSION ((uint8_t)2)
#define SEDGE_CLCW_COP ((uint8_t)3)
#define SEDGE_CLCW_SPARE ((uint8_t)4)
#define SEDGE_CLCW_RANGE ((uint8_t)5)
#define SEDGE_CLCW_RETRANSMIT ((uint8_t)0x08)
#define SEDGE_CLCW_WAIT ((uint8_t)0x10)
#define SEDGE_CLCW_LOCKOUT ((uint8_t)0x20)
#define SEDGE_CLCW_NO_BIT_LOCK ((uint8_t)0x40)
#define SEDGE_CLCW_NO_RF ((uint8_t)0x80)
#define SEDGE_COP_WIDTH ((uint8_t)1)
#define SEDGE_COP_WINDOW ((uint8_t)2)
#define SEDGE_COP_LIMIT ((uint8_t)3)
#define SEDGE_COP_TIMER ((uint8_t)4)
#define SEDGE_COP_NOT_OPEN ((uint8_t)6)
#define SEDGE_COP_BUSY ((uint8_t)7)
#define SEDGE_COP_WRONG_STATE ((uint8_t)8)
#define SEDGE_ACCEPTED ((uint8_t)0)
#define SEDGE_AHEAD ((uint8_t)1)
#define SEDGE_NO_BUFFER ((uint8_t)2)
#define SEDGE_BEHIND ((uint8_t)3)
#define SEDGE_OUTSIDE ((uint8_t)4)
#define SEDGE_DISCARDED ((uint8_t)5)
#define SEDGE_FARM_OPEN ((uint8_t)0)
#define SEDGE_FARM_WAIT ((uint8_t)1)
#define SEDGE_FARM_LOCKOUT ((uint8_t)2)
#define SEDGE_FOP_S1 ((uint8_t)1)
#define SEDGE_FOP_S2 ((uint8_t)2)
#define SEDGE_FOP_S3 ((uint8_t)3)
#define SEDGE_FOP_S4 ((uint8_t)4)
#define SEDGE_FOP_S5 ((uint8_t)5)
#define SEDGE_FOP_S6 ((uint8_t)6)
#define SEDGE_CONTROL_IDLE ((uint8_t)0)
#define SEDGE_CONTROL_UNLOCK_DUE ((uint8_t)1)
#define SEDGE_CONTROL_UNLOCK_SENT ((uint8_t)2)
#define SEDGE_CONTROL_SET_VR_DUE ((uint8_t)3)
#define SEDGE_CONTROL_SET_VR_SENT ((uint8_t)4)
#define SEDGE_NO_ALERT ((uint8_t)0)
#define SEDGE_ALERT_LOCKOUT ((uint8_t)1)
#define SEDGE_ALERT_NNR ((uint8_t)2)
#define SEDGE_ALERT_CLCW ((uint8_t)3)
#define SEDGE_ALERT_SYNCH ((uint8_t)4)
#define SEDGE_ALERT_LIMIT ((uint8_t)5)
#define SEDGE_ALERT_TIMER ((uint8_t)6)
#define SEDGE_ALERT_TERMINATED ((uint8_t)7)
#define SEDGE_NEXT_NOTHING ((uint8_t)0)
#define SEDGE_NEXT_UNLOCK ((uint8_t)1)
#define SEDGE_NEXT_SET_VR ((uint8_t)2)
#define SEDGE_NEXT_FIRST ((uint8_t)3)
#define SEDGE_NEXT_AGAIN ((uint8_t)4)
#define SEDGE_INIT_WITHOUT_CHECK ((uint8_t)1)
#define SEDGE_INIT_WITH_CHECK ((uint8_t)2)
#define SEDGE_INIT_UNLOCK ((uint8_t)3)
#define SEDGE_INIT_SET_VR ((uint8_t)4)
#define SEDGE_TERMINATE ((uint8_t)5)
#define SEDGE_SET_VS ((uint8_t)6)
#define SEDGE_SET_WINDOW ((uint8_t)7)
#define SEDGE_SET_LIMIT ((uint8_t)8)
#define SEDGE_SET_TIMER ((uint8_t)9)
#define SEDGE_TC_SHORT ((uint8_t)1)
#define SEDGE_TC_VERSION ((uint8_t)2)
#define SEDGE_TC_RESERVED_TYPE ((uint8_t)3)
#define SEDGE_TC_SPARE ((uint8_t)4)
#define SEDGE_TC_LENGTH ((uint8_t)5)
#define SEDGE_TC_CHECK ((uint8_t)6)
#define SEDGE_TC_BYPASS_NUMBER ((uint8_t)7)
#define SEDGE_TC_EMPTY_DATA ((uint8_t)8)
#define SEDGE_TC_COMMAND ((uint8_t)9)
#define SEDGE_TC_ROOM ((uint8_t)10)
#define SEDGE_TC_FIELD_RANGE ((uint8_t)11)
#define SEDGE_TC_AD ((uint8_t)0)
#define SEDGE_TC_BD ((uint8_t)1)
#define SEDGE_TC_BC ((uint8_t)2)
#define SEDGE_SEGMENT_CONTINUING ((uint8_t)0)
#define SEDGE_SEGMENT_FIRST ((uint8_t)1)
#define SEDGE_SEGMENT_LAST ((uint8_t)2)
#define SEDGE_SEGMENT_ALONE ((uint8_t)3)
#define SEDGE_UNLOCK ((uint8_t)0)
#define SEDGE_SET_VR ((uint8_t)1)
#define SEDGE_PACKET_TRUNCATED ((uint8_t)1)
#define SEDGE_PACKET_VERSION ((uint8_t)2)
#define SEDGE_PACKET_IDLE_WITH_SECONDARY ((uint8_t)3)
#define SEDGE_PACKET_ROOM ((uint8_t)4)
#define SEDGE_PACKET_FIELD_RANGE ((uint8_t)5)
#define SEDGE_PACKET_TELEMETRY ((uint8_t)0)
#define SEDGE_PACKET_TELECOMMAND ((uint8_t)1)
#define SEDGE_SEQUENCE_CONTINUATION ((uint8_t)0)
#define SEDGE_SEQUENCE_FIRST ((uint8_t)1)
#define SEDGE_SEQUENCE_LAST ((uint8_t)2)
#define SEDGE_SEQUENCE_UNSEGMENTED ((uint8_t)3)
#define SEDGE_TM_LENGTH ((uint8_t)1)
#define SEDGE_TM_VERSION ((uint8_t)2)
#define SEDGE_TM_CHECK ((uint8_t)3)
#define SEDGE_TM_STATUS ((uint8_t)4)
#define SEDGE_TM_POINTER ((uint8_t)5)
#define SEDGE_TM_NO_OCF ((uint8_t)6)
#define SEDGE_TM_MEMORY ((uint8_t)7)
#define SEDGE_TM_NOT_A_PACKET ((uint8_t)8)
#define SEDGE_TM_ROOM ((uint8_t)9)
#define SEDGE_TM_FIELD_RANGE ((uint8_t)10)
#define SEDGE_POINTER_ONLY_IDLE ((uint16_t)2046)
#define SEDGE_POINTER_NO_START ((uint16_t)2047)
#define SEDGE_NOT_DROPPED ((uint8_t)0)
#define SEDGE_DROPPED_CLOSED_MAP ((uint8_t)1)
#define SEDGE_DROPPED_INTERRUPTED ((uint8_t)2)
#define SEDGE_DROPPED_NO_BEGINNING ((uint8_t)3)
#define SEDGE_DROPPED_NOT_A_PACKET ((uint8_t)4)
#define SEDGE_DROPPED_TOO_LONG ((uint8_t)5)
#define SEDGE_NO_PACKET ((uint8_t)0)
#define SEDGE_IN_MEMORY ((uint8_t)1)
#define SEDGE_IN_DATA ((uint8_t)2)
#define SEDGE_MAP_NOT_A_PACKET ((uint8_t)1)
#define SEDGE_MAP_TOO_LONG ((uint8_t)2)
#define SEDGE_LOG_LAYOUT ((uint8_t)1)
#define SEDGE_LOG_CHECK ((uint8_t)2)
#define SEDGE_LOG_STARTING ((uint8_t)3)
#define SEDGE_LOG_BUSY ((uint8_t)4)
#define SEDGE_LOG_LOST ((uint8_t)5)
#define SEDGE_LOG_BEHIND ((uint8_t)6)
#define SEDGE_LOG_AHEAD ((uint8_t)7)
#define SEDGE_LOG_OTHER_BOOT ((uint8_t)8)
#define SEDGE_LOG_NOT_LOST ((uint8_t)9)
#define SEDGE_LOG_OTHER_MARK ((uint8_t)10)
#define SEDGE_LOG_FIELD_RANGE ((uint8_t)11)
#define SEDGE_LOG_ROOM ((uint8_t)12)
#define SEDGE_LOG_NOTHING ((uint8_t)0)
#define SEDGE_LOG_WRITE_FIRST ((uint8_t)1)
#define SEDGE_LOG_WRITE_SECOND ((uint8_t)2)
#define SEDGE_LOG_EXECUTE ((uint8_t)3)
#define SEDGE_LOG_RESTART ((uint8_t)4)
#define SEDGE_LOG_STATUS_SAYS ((uint8_t)0)
#define SEDGE_LOG_STATUS_CHANGES ((uint8_t)1)
#define SEDGE_LOG_STATUS_STARTS ((uint8_t)2)
#define SEDGE_LOG_STATUS_LOST ((uint8_t)3)
#define SEDGE_LOG_ORDER_RESTART ((uint8_t)1)
#define SEDGE_LOG_ORDER_REBUILD ((uint8_t)2)
#endif

/* ---- Old names of calls, which will be removed after 0.3. ---- */

#define sedge_farm_report sedge_farm_control_word
#define sedge_fop_report sedge_fop_clcw

#ifdef __cplusplus
}
#endif

#endif
