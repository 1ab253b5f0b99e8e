// Made by web/bindings of c/include/sedgechisel.h and c/include/sedgechisel_nodes.h.

export interface sedge_part {
    from: number;
    count: number;
}

export interface sedge_clcw {
    /** The status field, 3 bits, which is carried and not interpreted. */
    status: number;
    /** The virtual channel that the CLCW reports on, 6 bits. */
    vcid: number;
    /** The flags. */
    flags: number;
    /** The FARM-B counter, 2 bits. */
    farm_b: number;
    /** The report value, V(R) of the receiver. */
    value: number;
}

export interface sedge_farm {
    /** The width of both windows together; each is half of it. */
    width: number;
    /** V(R), the number of the next frame to be accepted. */
    vr: number;
    /** The flags, 0 or 1. */
    lockout: number;
    wait: number;
    retransmit: number;
    /** FARM-B, the count of Type-B frames modulo 4. */
    farm_b: number;
}

export interface sedge_fop {
    /** The timer's value in ticks, at least 1. */
    timer: number;
    /** The ticks that are left while the timer runs, or 0 while it is off. */
    ticks: number;
    /** Half the receiver's window width, 1 to 127: the maximum number of units sent and not acknowledged. */
    room: number;
    /** Of `sedge_fop_state`. */
    state: number;
    /** V(S), the number of the next unit to be sent for the first time. */
    vs: number;
    /** NN(R), the number that the receiver was last known to expect. */
    nn: number;
    /** Whether a unit waits to be sent for the first time, 0 or 1. */
    waiting: number;
    /** The number of units sent and not acknowledged, at most room. */
    sent: number;
    /** How many of these, the last ones, are due to be retransmitted. */
    due: number;
    /** The window K, 1 to room. */
    window: number;
    /** The transmission limit, at least 1. */
    limit: number;
    /** The transmission count, at least 1. */
    count: number;
    /** Of `sedge_control`. */
    control: number;
    /** The number of the control command Set V(R), or 0 if there is no such command. */
    vr: number;
}

export interface sedge_tc_frame {
    /** The spacecraft identifier, below 1,024. */
    scid: number;
    /** The virtual channel identifier, below 64. */
    vcid: number;
    /** Of `sedge_tc_kind`. */
    kind: number;
    /** Type-AD: the sequence number N(S). */
    n: number;
    /** Type-AD and Type-BD: of `sedge_segment_flags`. */
    flags: number;
    /** Type-AD and Type-BD: the MAP identifier, below 64. */
    map: number;
    /** Type-BC: of `sedge_command`. */
    command: number;
    /** Type-BC, Set V(R): the number. */
    vr: number;
}

export interface sedge_packet {
    /** The application process identifier, below 2,048; idle packets have 2,047 (4.1.3.3.4). */
    apid: number;
    /** The sequence count or the packet's name, below 16,384 (4.1.3.4.3). */
    count: number;
    /** Of `sedge_packet_kind`. */
    kind: number;
    /** Whether the data field begins with a secondary header, 0 or 1 (4.1.3.3.3). */
    secondary: number;
    /** The sequence flags, of `sedge_sequence_flags` (4.1.3.4.2). */
    flags: number;
}

export interface sedge_gap_check {
    /** The last count that was seen, by APID; above 16,383 if no packet of the APID was seen. */
    last: number[];
}

export interface sedge_tm_frame {
    /** The spacecraft identifier, below 1,024. */
    scid: number;
    /** The place in the data, from 0, where the first packet starts, or one of `sedge_pointer`. */
    pointer: number;
    /** The virtual channel identifier, below 8. */
    vcid: number;
    /** The master channel frame count. */
    mc_count: number;
    /** The virtual channel frame count. */
    vc_count: number;
    /** The operational control field, as `sedge_clcw_encode` writes it (4.1.5). */
    ocf: number[];
}

export interface sedge_tm_builder {
    /** Where the octets that are to be sent are in the memory. */
    from: number;
    /** The number of octets that are to be sent. */
    count: number;
    /** How many of these, the first ones, are left of the packet that was begun. */
    begun: number;
    /** The spacecraft identifier, below 1,024. */
    scid: number;
    /** The length of a frame in octets, 16 to 2,048. */
    length: number;
    /** The virtual channel identifier, below 8. */
    vcid: number;
    /** The frame count of the next frame, on the master and on the virtual channel. */
    next_count: number;
    /** The number of octets left of an idle packet, at most 6, which are sent first. */
    idle_left: number;
}

export interface sedge_tm_extractor {
    /** Where the part is in the memory. */
    from: number;
    /** The number of octets of the part, or 0 if there is none. */
    count: number;
    /** The virtual channel frame count of the last frame, if one was seen. */
    last: number;
    /** Whether a frame was seen, 0 or 1. */
    seen: number;
}

export interface sedge_tm_extracted {
    /** The length of the packet at the beginning of the memory, or 0 if there is none. */
    joined: number;
    /** Where `sedge_tm_packet` begins in the frame's data. */
    packets: sedge_part;
    /** Whether this is the first frame, 0 or 1. */
    first: number;
    /** The number of frames missing before it, modulo 256, or 0 for the first (4.1.2.6). */
    lost: number;
}

export interface sedge_map {
    /** The number of octets of the open part, or 0 if none is open. */
    count: number;
    /** Whether a part is open, 0 or 1. */
    open: number;
    /** Whether a segment may hold several whole packets, 0 or 1. */
    blocking: number;
}

export interface sedge_taken {
    /** The number of octets of all the packets together, or 0 if there are none. */
    count: number;
    /** Of `sedge_where`. */
    where: number;
    /** Of `sedge_dropped`; if octets were dropped for two causes, the later one. */
    dropped: number;
}

export interface sedge_limits {
    /** The maximum length of a segment's data in octets, at least 1. */
    part: number;
    /** The maximum length of a packet in octets. */
    max_packet: number;
    /** Whether packets that together have at most `part` octets go into one segment, 0 or 1. */
    blocking: number;
}

export interface sedge_log_record {
    /**
     * A bit for each of the 64 numbers up to last, the lowest bit for last: 1 if it is known that the command was
     * executed completely.
     */
    known: bigint;
    /** How often the board has started. */
    boot: number;
    /** The number of the last command that was executed or passed over. Numbers begin at 1. */
    last: number;
    /** The running check of all commands that were taken since the record was new or was brought by an order. */
    history: number;
    /** Whether the next command is begun, 0 or 1. */
    begun: number;
}

export interface sedge_log {
    /** The record as it is at both places, or as it is being written. */
    kept: sedge_log_record;
    /** The mark of the loss if the record is lost, and 0 otherwise. */
    mark: number;
    /** The stage, 1 to 8. */
    stage: number;
}

export interface sedge_board_status {
    /** The record for `SEDGE_LOG_STATUS_SAYS`, otherwise zeros. */
    kept: sedge_log_record;
    /** The mark of the loss for `SEDGE_LOG_STATUS_LOST`, otherwise 0. */
    mark: number;
    /** Of `sedge_log_status_kind`. */
    kind: number;
    /** How many commands wait on board, at most 255. */
    waiting: number;
}

export interface sedge_log_order {
    /** The boot count, of the board that restarts or of the record. */
    boot: number;
    /** The last number of the record; 0 for a restart. */
    last: number;
    /** The mark of the loss; 0 for a restart. */
    mark: number;
    /** Of `sedge_log_order_kind`. */
    kind: number;
}

export interface sedge_config {
    /** The spacecraft identifier, 0 to 1,023; default 1. */
    scid: number;
    /** The virtual channel of telecommand frames, 0 to 63; default 2. */
    vcid: number;
    /** The virtual channel of telemetry frames, 0 to 7; default 0. */
    tm_vcid: number;
    /** The width of the receiver's window, even, 2 to 254; default 254. */
    width: number;
    /** The sender's window K, 1 to width/2; default 127. */
    window: number;
    /** The transmission limit, 1 to 255; default 3. */
    limit: number;
    /** The timer's value in ticks, 1 to 65,535; default 10. */
    timer: number;
    /**
     * The maximum number of data octets in a segment. Without silence before an initiation, segments of two longer
     * packets can be joined into a command that nobody submitted. Range 1 to 1,016; default 1,016.
     */
    part: number;
    /** The maximum length of a packet in octets, 7 to 65,542; default 65,542. */
    max_packet: number;
    /** The open MAPs, any 64 bits: bit m, of value 2 to the power of m, is 1 if MAP m is open; default all ones. */
    maps: bigint;
    /** The number of packets waiting to be taken at which the buffer on board is full, 1 to 64; default 64. */
    ready_slots: number;
    /** The maximum number of bypass packets that wait to be taken, 1 to 64; default 4. */
    bypass_slots: number;
    /** The maximum number of units that wait to be sent for the first time, 1 to 65,535; default 1,000. */
    queue_slots: number;
    /** The length of a telemetry frame in octets, 16 to 2,048; default 64. */
    frame_length: number;
    /** 1 if a segment may contain several packets, 0 to 1; default 0. */
    blocking: number;
}

export interface sedge_ground {
    node: number;
}

export interface sedge_heard {
    /** FRAME: the number of packets added to those that wait to be taken. */
    packets: number;
    /** Of `sedge_heard_kind`. */
    kind: number;
    /** INVALID: why the octets do not form a valid frame, of `sedge_tm_fault`. */
    fault: number;
    /** FRAME: whether it is the first frame, 0 or 1. */
    first: number;
    /** FRAME: the number of frames that are missing before it. */
    missing: number;
    /** FRAME, CLCW: what becomes of the CLCW, of `sedge_heard_report`. */
    report: number;
    /** REFUSED: why it is not a valid CLCW, of `sedge_clcw_fault`. */
    word_fault: number;
    /** USED: of `sedge_alert`, `SEDGE_NO_ALERT` for none. */
    alert: number;
}

export interface sedge_ground_reading {
    /**
     * The number of the session's submissions, which are numbered from 0. This number and the two below are modulo
     * 2^64. An alert does not change them; beginning a session or setting V(S) makes them 0.
     */
    submitted: bigint;
    /** How many of the session's submissions, counted from the first, were sent whole, to the last segment. */
    sent_whole: bigint;
    /**
     * How many of the session's submissions, counted from the first, are acknowledged whole, and are therefore on
     * board.
     */
    acknowledged_whole: bigint;
    /** The number of segments that were submitted and are not acknowledged. */
    outstanding: number;
    /** How many outstanding segments wait to be sent for the first time. */
    unsent: number;
    /** How many outstanding segments are to be retransmitted. */
    due: number;
    /** How many bypass packets wait to be sent. */
    bypassed: number;
    /** The length of a telemetry frame in octets. */
    frame_length: number;
    /** The ticks that are left while the timer runs, otherwise 0. */
    ticks: number;
    /** The sender's state, of `sedge_fop_state` (232.1-B-2, 5.1). */
    state: number;
    /** V(S), the number of the next segment that is sent for the first time. */
    vs: number;
    /** NN(R), the number that the spacecraft was last known to expect. */
    nn: number;
    /** The transmission count, at least 1. */
    count: number;
}

export interface sedge_kept_ground {
    /** How many submissions are acknowledged whole, modulo 2^64. */
    acknowledged: bigint;
    /** V(S), the number of the next segment that is sent for the first time. */
    vs: number;
    /** NN(R), the number that the spacecraft was last known to expect. */
    nn: number;
    /** 1 if these numbers are a session's and no alert has shown a broken condition, otherwise 0. */
    known: number;
    /** The number of further submissions that were sent whole, 0 to 127. */
    whole: number;
    /** For each of these, the oldest first, the number of its segments that are not acknowledged; then zeros. */
    segments: number[];
    /** Zeros, which are not read. */
    zeros: number[];
}

export interface sedge_spacecraft {
    node: number;
}

export interface sedge_received {
    /** AD: the number of packets added to those that wait to be taken. */
    ready: number;
    /** Of `sedge_received_kind`. */
    kind: number;
    /** INVALID: why the octets do not form a valid frame, of `sedge_tc_fault`. */
    fault: number;
    /** AD: its number, N(S). */
    n: number;
    /** AD: of `sedge_verdict`. */
    verdict: number;
    /** AD: why octets on its MAP were dropped, of `sedge_dropped`; `SEDGE_NOT_DROPPED` for none. */
    dropped: number;
    /** BD: whether it carried a packet, which is kept. */
    kept: boolean;
    /** BC: of `sedge_command`. */
    command: number;
    /** BC: the number of Set V(R). */
    vr: number;
}

export interface sedge_spacecraft_reading {
    /** The length of a telemetry frame in octets. */
    frame_length: number;
    /** How many packets of sequence-controlled frames wait to be taken. */
    ready: number;
    /** How many bypass packets wait to be taken. */
    bypassed: number;
    /** The fields of the CLCW that the next frame carries, as in struct `sedge_clcw`. */
    status: number;
    vcid: number;
    flags: number;
    farm_b: number;
    value: number;
    /** The receiver's state, of `sedge_farm_mode`. */
    state: number;
    /** The next frame's count on the master channel. */
    mc_count: number;
    /** The next frame's count on the virtual channel. */
    vc_count: number;
}

export interface sedge_commander {
    node: number;
}

export interface sedge_mission {
    /**
     * The longest time in ticks from sending a frame to the arrival of a CLCW and of a status that were both made after
     * the frame arrived.
     */
    round_trip: number;
    /** The APID of orders, 0 to 2,046. */
    orders: number;
    /** The APID of the board's status. */
    status: number;
    /** The MAP of orders, one that is open. */
    map: number;
    /**
     * 1 if sending stops after a restart of the board, or the loss of its record, until `sedge_commander_go_on` is
     * called, otherwise 0. The first status of a board counts as a restart. No pause is stored.
     */
    holds: number;
}

export interface sedge_commander_action {
    /** EXECUTED, UNKNOWN: the tag of the command. */
    tag: bigint;
    /** RESTARTED: the new boot count. RECORD_LOST: the mark of the loss. FOREIGN: the first number. */
    number: number;
    /** FOREIGN: the last number. */
    last: number;
    /** STORE: the number of octets to be appended. SEND: the length of the frame in octets. */
    count: number;
    /** Of `sedge_commander_action_kind`. */
    kind: number;
    /** ALERT: of `sedge_alert`. */
    alert: number;
}

export interface sedge_commander_reading {
    /** The number up to which every command has its fate. */
    below: number;
    /** The highest number that was given, or that a command of another ground had on board. */
    highest: number;
    /**
     * 1 if a fresh store would have less than half as many octets, and nothing is left to be stored or reported;
     * otherwise 0.
     */
    worth: number;
}

export interface sedge_sim {
    link: number;
}

export interface sedge_reply {
    /** The number of octets of the frame that was sent, or of the packet. */
    count: number;
    /** How many submissions of the ended session are on board whole. */
    whole: bigint;
    up: sedge_received;
    down: sedge_heard;
    report: sedge_clcw;
    /** Of `sedge_reply_kind`. */
    kind: number;
    /** Of `sedge_refused_by`. */
    by: number;
    /** The number of the refusal, of the enumeration that `by` selects. */
    fault: number;
    /** Of `sedge_alert`. */
    alert: number;
    /** The MAP of the packet. */
    map: number;
}

export interface sedge_event {
    /** Of `sedge_event_kind`. */
    kind: number;
    /** The MAP. */
    map: number;
    /** Of `sedge_directive`. */
    directive: number;
    /**
     * The directive's value, as for `sedge_ground_directive`; or the value of the CLCW with which the ground resumes, 0
     * to 255.
     */
    value: number;
    /** Where the octets begin. */
    octets: Uint8Array;
}

export interface sedge_sim_reading {
    /** The number of segments that were submitted and are not acknowledged. */
    outstanding: number;
    /** How many of the frames sent, counted from the first, the ground regards as acknowledged. */
    acknowledged: number;
    /** The state of the ground's sender, of `sedge_fop_state`. */
    state: number;
    /** Of `sedge_begun`. */
    begun: number;
    /** The number of Set V(R). */
    vr: number;
    /** The session began with nothing in transit and, if without a CLCW check, with V(R) equal to V(S). */
    clean: boolean;
    /** The session had an idle start (docs/PROMISES.md). */
    idle: boolean;
    /** A CLCW has taken the ground from S4 or S5 to S1. */
    confirmed: boolean;
}

/** A number that a call writes. */
export interface Box { value: number }

/** The calls of the headers, with their comments. A call may write a struct or a box: it may be empty before. */
export interface Calls {
    /** Returns the version of the library. */
    sedge_version(): string;
    /** Returns the check of the octets. */
    sedge_check(octets: Uint8Array): number;
    /**
     * Sets the last two octets to the check of those before them, and returns true. For fewer than two octets, returns
     * false and writes nothing.
     */
    sedge_check_append(octets: Uint8Array): boolean;
    /**
     * Returns whether the last two octets are the check of those before them; false for fewer than two octets
     * (232.0-B-4, 4.1.4.3).
     */
    sedge_check_holds(octets: Uint8Array): boolean;
    /**
     * Reads four octets as a CLCW of any virtual channel: compare its vcid with your own before you use its value or
     * its flags (`sedge_fop_clcw` does so itself). Returns 0, or the first of 1 to 4 of `sedge_clcw_fault` that
     * applies, or `SEDGE_WRONG_COUNT` if the octets are not four.
     */
    sedge_clcw_decode(octets: Uint8Array, word: Partial<sedge_clcw>): number;
    /**
     * Writes a CLCW as four octets. Returns 0, `SEDGE_CLCW_RANGE`, or `SEDGE_WRONG_COUNT` if the buffer is not four
     * octets long.
     */
    sedge_clcw_encode(word: Partial<sedge_clcw>, out: Uint8Array): number;
    /**
     * Begins a receiver in state Open, with all flags 0 and FARM-B 0, that expects the number `vr`. Returns 0, or
     * `SEDGE_COP_WIDTH`.
     */
    sedge_farm_open(farm: Partial<sedge_farm>, width: number, vr: number): number;
    /**
     * Judges a Type-AD frame whose number N(S) is `n`; `buffer_free` states whether there is room for its data. Returns
     * the verdict, of `sedge_verdict`, or `SEDGE_DAMAGED`. If the verdict is `SEDGE_ACCEPTED`, pass on the frame's
     * data.
     */
    sedge_farm_ad(farm: Partial<sedge_farm>, n: number, buffer_free: boolean): number;
    /** Counts a Type-BD frame; pass on its data in every state. Returns 0, or `SEDGE_DAMAGED`. */
    sedge_farm_bd(farm: Partial<sedge_farm>): number;
    /** Executes the control command Unlock. Returns 0, or `SEDGE_DAMAGED`. */
    sedge_farm_unlock(farm: Partial<sedge_farm>): number;
    /**
     * Executes the control command Set V(R); in Lockout it is only counted in FARM-B, and V(R) does not change. Returns
     * 0, or `SEDGE_DAMAGED`.
     */
    sedge_farm_set_vr(farm: Partial<sedge_farm>, vr: number): number;
    /** Records that there is room on board again. Returns 0, or `SEDGE_DAMAGED`. */
    sedge_farm_released(farm: Partial<sedge_farm>): number;
    /**
     * Writes the CLCW (232.0-B-4, 4.2) that reports the receiver's present state for the virtual channel `vcid`; the
     * flags for the radio channel and bit lock are 0. Returns 0, or `SEDGE_DAMAGED`, or `SEDGE_CLCW_RANGE` if `vcid` is
     * not below 64.
     */
    sedge_farm_control_word(farm: Partial<sedge_farm>, vcid: number, word: Partial<sedge_clcw>): number;
    /** Returns the receiver's state, of `sedge_farm_mode`, or `SEDGE_DAMAGED`. */
    sedge_farm_state(farm: Partial<sedge_farm>): number;
    /**
     * Begins a sender in state S6 with V(S) = NN(R) = 0, for a receiver of this window width, with the window K, the
     * transmission limit and the timer's value in ticks. Returns 0, or the first of `SEDGE_COP_WIDTH` (not even, 2 to
     * 254), `SEDGE_COP_WINDOW` (not 1 to half the width), `SEDGE_COP_LIMIT` (0) and `SEDGE_COP_TIMER` (0).
     */
    sedge_fop_open(fop: Partial<sedge_fop>, width: number, window: number, limit: number, timer: number): number;
    /**
     * Gives the sender a directive, of `sedge_directive`, with its value; a directive without a value ignores it.
     * Returns 0, or `SEDGE_COP_WRONG_STATE`, or for a value out of range `SEDGE_COP_WINDOW`, `SEDGE_COP_LIMIT` or
     * `SEDGE_COP_TIMER`. Returns `SEDGE_DAMAGED` also for a number that is not a directive, and for a V(R) or V(S)
     * above 255.
     */
    sedge_fop_directive(fop: Partial<sedge_fop>, directive: number, value: number): number;
    /**
     * Submits a unit to be sent under sequence control. The unit waits, and the caller keeps it. Returns 0, or
     * `SEDGE_DAMAGED`, or `SEDGE_COP_NOT_OPEN` in S6, or `SEDGE_COP_BUSY` while another unit waits.
     */
    sedge_fop_submit(fop: Partial<sedge_fop>): number;
    /**
     * Takes what is to be sent on the link next. Returns what this is, of `sedge_next`, and writes its number, or 0 if
     * it has none; or returns `SEDGE_DAMAGED`, with nothing written.
     */
    sedge_fop_next(fop: Partial<sedge_fop>, number: Partial<Box>): number;
    /**
     * Takes a CLCW for the sender of the virtual channel `vcid`. The call compares this number with the CLCW's `vcid`;
     * the caller has already compared the scid of the telemetry frame that carried the CLCW. Returns the alert, of
     * `sedge_alert`, and writes how many units are acknowledged, the oldest of those sent. Writes and changes nothing,
     * and returns `SEDGE_ABSENT` if the CLCW reports on another channel, or else `SEDGE_DAMAGED` if a struct is
     * damaged.
     */
    sedge_fop_clcw(fop: Partial<sedge_fop>, vcid: number, word: Partial<sedge_clcw>, released: Partial<Box>): number;
    /** Counts a tick of the clock. Returns the alert, of `sedge_alert`, or `SEDGE_DAMAGED`. */
    sedge_fop_tick(fop: Partial<sedge_fop>): number;
    /**
     * Writes how many of the units that were sent and not acknowledged were accepted on board when a CLCW with this
     * value was made: the oldest ones, with the numbers from NN(R) to value - 1 (5.1). The call still does so after an
     * alert, until V(S) is set or an initiation begins. But it uses only the numbers: after an alert that shows a
     * broken condition, nothing is known of these units, whatever it writes. If V(S) is NN(R), there are no such units,
     * and it writes 0 for every value. Returns 0, or `SEDGE_DAMAGED`, or, with nothing written, `SEDGE_ABSENT` if V(S)
     * is not NN(R) and the value does not lie from NN(R) to V(S): nothing is then known of these units.
     */
    sedge_fop_accepted_beyond(fop: Partial<sedge_fop>, value: number, accepted: Partial<Box>): number;
    /**
     * Writes what `sedge_fop_accepted_beyond` writes for a sender with this NN(R) and this V(S). Returns 0, or
     * `SEDGE_ABSENT` if nothing is known.
     */
    sedge_accepted_beyond(nn: number, vs: number, value: number, accepted: Partial<Box>): number;
    /**
     * Reads all of the octets as one frame, which ends with its FECF if `checked` is true. Writes the frame's fields,
     * and where the data after the segment header are: `{0, 0}` for a control frame, which has none. The frame may be
     * of any spacecraft and virtual channel: compare scid and vcid with your own before you pass the frame to a
     * receiver. Returns 0, or the first of 1 to 9 of `sedge_tc_fault` that applies.
     */
    sedge_tc_decode(octets: Uint8Array, checked: boolean, frame: Partial<sedge_tc_frame>, data: Partial<sedge_part>): number;
    /**
     * Writes the frame with these data (ignored for a control frame) to the beginning of `out`, with its FECF if
     * `checked` is true. Writes the frame's length in octets, 6 to 1,024, to `total`. Returns 0, or the first of
     * `SEDGE_DAMAGED` (the kind, the segment flags or the command is not in its enumeration), `SEDGE_TC_FIELD_RANGE`
     * and `SEDGE_TC_ROOM`.
     */
    sedge_tc_encode(frame: Partial<sedge_tc_frame>, data: Uint8Array, checked: boolean, out: Uint8Array, total: Partial<Box>): number;
    /**
     * Reads the length of the frame that begins with these octets from its first 5 octets, and writes it to `total`;
     * use it to cut a stream (4.1.2.7). Returns 0, or `SEDGE_TC_SHORT` for fewer than 5 octets, or `SEDGE_TC_LENGTH` if
     * the frame declares fewer than 5 octets, or with its FECF fewer than 7.
     */
    sedge_tc_declared(octets: Uint8Array, checked: boolean, total: Partial<Box>): number;
    /**
     * Reads the frames that follow one another in the octets, each as long as it declares (4.1.2.7), and writes a
     * record of 12 octets for each to `out`, in order. A record begins with the number of the frame's octets and the
     * number that `sedge_tc_decode` returns for the frame. Then come the scid, vcid, kind, n, flags, map, command and
     * vr that it writes, or 0 for each if it refuses the frame. The number of octets and the scid take two octets each,
     * the lower one first; the others take one. The data of a Type-AD or Type-BD frame begin 6 octets after the frame
     * does. Stops when `out` has no room for a record, or when no whole frame follows; `sedge_tc_declared`, called with
     * the octets there, shows whether their length is refused. Writes the number of octets of all these frames to
     * `total`. Returns the number of frames.
     */
    sedge_tc_frames(octets: Uint8Array, checked: boolean, out: Uint8Array, total: Partial<Box>): number;
    /**
     * Reads the packet at the beginning of the octets, and writes its fields and where its data field is. The packet
     * ends with its data field, and octets after it are ignored. Returns 0, or the first of 1 to 3 of
     * `sedge_packet_fault` that applies; the declared length (`SEDGE_PACKET_TRUNCATED`) is checked last.
     */
    sedge_packet_decode(octets: Uint8Array, packet: Partial<sedge_packet>, data: Partial<sedge_part>): number;
    /**
     * Writes the packet with this data field to the beginning of `out`, and its length in octets, 6 more than its data
     * have, to `total`. Returns 0, or the first of `SEDGE_DAMAGED` (the kind is not in its enumeration, or the
     * secondary header flag is above 1), `SEDGE_PACKET_FIELD_RANGE` and `SEDGE_PACKET_ROOM`.
     */
    sedge_packet_encode(packet: Partial<sedge_packet>, data: Uint8Array, out: Uint8Array, total: Partial<Box>): number;
    /**
     * Reads the length of the packet that begins with these octets from its first 6 octets, and writes it to `total`;
     * use it to cut a stream (4.1.3.5). Returns 0, or `SEDGE_PACKET_TRUNCATED` for fewer than 6 octets, or
     * `SEDGE_PACKET_VERSION`, or `SEDGE_PACKET_IDLE_WITH_SECONDARY`.
     */
    sedge_packet_declared(octets: Uint8Array, total: Partial<Box>): number;
    /** Begins a check of sequence counts that has seen no packet. */
    sedge_gap_check_open(check: Partial<sedge_gap_check>): void;
    /**
     * Records a packet of this APID with this count, as `sedge_packet_decode` writes them, and writes the number of
     * packets missing before it to `missing`: (count - last - 1) modulo 16,384. Returns 0, or `SEDGE_ABSENT` for the
     * first packet of the APID, which is recorded too, or `SEDGE_PACKET_FIELD_RANGE` if `apid` is not below 2,048 or
     * `count` not below 16,384.
     */
    sedge_gap_check_see(check: Partial<sedge_gap_check>, apid: number, count: number, missing: Partial<Box>): number;
    /**
     * Reads all of the octets as one frame of this length, and writes its fields and where its data are. The frame may
     * be of any spacecraft and virtual channel: compare scid and vcid with your own before you pass it to an extractor,
     * and scid before you use its CLCW. Returns 0, or the first of 1 to 6 of `sedge_tm_fault`.
     */
    sedge_tm_decode(octets: Uint8Array, length: number, frame: Partial<sedge_tm_frame>, data: Partial<sedge_part>): number;
    /**
     * Writes the frame with these data and its FECF to the beginning of `out`, and its length in octets, 12 more than
     * its data have, to `total`. Returns 0, or the first of `SEDGE_TM_FIELD_RANGE` and `SEDGE_TM_ROOM`.
     */
    sedge_tm_encode(frame: Partial<sedge_tm_frame>, data: Uint8Array, out: Uint8Array, total: Partial<Box>): number;
    /**
     * Begins a builder with frame counts of 0 and nothing to be sent. Returns 0, or `SEDGE_TM_FIELD_RANGE` if `scid` is
     * not below 1,024, `vcid` not below 8, or length not from 16 to 2,048.
     */
    sedge_tm_builder_open(builder: Partial<sedge_tm_builder>, scid: number, vcid: number, length: number): number;
    /**
     * Queues a packet, given by all of its octets, after the octets that are already to be sent; those are not read.
     * Returns 0, or the first of `SEDGE_DAMAGED` (no builder has the numbers of the struct, or its octets are not in
     * the memory), `SEDGE_TM_NOT_A_PACKET` (not exactly one packet, or an idle one) and `SEDGE_TM_MEMORY` (the octets
     * to be sent and the packet do not fit in the memory).
     */
    sedge_tm_builder_queue(builder: Partial<sedge_tm_builder>, packet: Uint8Array, memory: Uint8Array): number;
    /**
     * Writes the next frame to the beginning of `out`, with this operational control field, as `sedge_clcw_encode`
     * writes it, and its length, which is the builder's frame length, to `total`. If packets run out within the frame,
     * an idle packet fills it; if nothing is to be sent, it has only idle data. Returns 0, or the first of
     * `SEDGE_DAMAGED` (as for `sedge_tm_builder_queue`, or the octets that this frame takes are not whole packets),
     * `SEDGE_WRONG_COUNT` (the field is not four octets) and `SEDGE_TM_ROOM`.
     */
    sedge_tm_builder_build(builder: Partial<sedge_tm_builder>, ocf: Uint8Array, memory: Uint8Array, out: Uint8Array, total: Partial<Box>): number;
    /**
     * Takes the next frame that arrived from the spacecraft on the virtual channel: its fields and its data, as
     * `sedge_tm_decode` writes them. Use its packets before the next call:      if (extracted.joined > 0)
     * use_packet(memory, extracted.joined);     struct sedge_part packet = extracted.packets;     while
     * (sedge_tm_packet(data, data_count, &packet)) use_packet(data + packet.from, packet.count);  If frames are
     * missing, the part before them is dropped. Returns 0, or the first of `SEDGE_DAMAGED`, `SEDGE_TM_FIELD_RANGE` (the
     * pointer is after the data) and `SEDGE_TM_MEMORY` (the packet that the frame ends and the part that it leaves do
     * not fit in the memory). A refused frame counts as missing when the next one arrives.
     */
    sedge_tm_extractor_frame(extractor: Partial<sedge_tm_extractor>, frame: Partial<sedge_tm_frame>, data: Uint8Array, memory: Uint8Array, extracted: Partial<sedge_tm_extracted>): number;
    /**
     * Finds the next packet that is not idle after this part of a frame's data. Returns true and writes where that
     * packet is; or returns false and writes nothing if there is none.
     */
    sedge_tm_packet(data: Uint8Array, packet: Partial<sedge_part>): boolean;
    /**
     * Takes the frames of this length that follow one another in the octets, each as `sedge_tm_decode` and then
     * `sedge_tm_extractor_frame` take it. Writes a record of 19 octets for each frame to `out`, in order. A record
     * begins with the number of octets of the frame's packets (four octets, the lowest one first), and the first fault
     * of these two calls, or 0. Then come first, lost and dropped, one octet each; dropped is 1 if a packet that was
     * begun and is not idle is dropped, and otherwise 0. The record ends with the frame's fields: the scid and the
     * pointer (two octets each, the lower one first), the vcid, mc_count, vc_count and ocf. These fields are 0 if the
     * octets do not form a valid frame. Writes the packets of all these frames to `packets`, one after another:
     * `sedge_map_packet` finds where each begins. Stops when `out` has no room for a record, when `packets` has no room
     * for as many octets as the memory and a frame have together, or when no whole frame follows. Takes no frame if the
     * length is 0. Writes the number of octets of all these packets to `total`. Returns the number of frames.
     */
    sedge_tm_extractor_frames(extractor: Partial<sedge_tm_extractor>, octets: Uint8Array, frame_length: number, memory: Uint8Array, out: Uint8Array, packets: Uint8Array, total: Partial<Box>): number;
    /**
     * Takes the next segment of the MAP: its flags, of `sedge_segment_flags`, and its data. Before the next call, pass
     * on the packets that are whole now. Returns 0, or `SEDGE_DAMAGED`, also for flags above 3.
     */
    sedge_map_take(map: Partial<sedge_map>, flags: number, data: Uint8Array, memory: Uint8Array, taken: Partial<sedge_taken>): number;
    /**
     * Finds the packet that follows this part of the octets; begin with `{0, 0}`. Returns true and writes where that
     * packet is; or returns false and writes nothing if there is none.
     */
    sedge_map_packet(octets: Uint8Array, packet: Partial<sedge_part>): boolean;
    /**
     * Writes the number of segments of one packet, or with blocking of one or more packets, one after another. Returns
     * 0, or `SEDGE_DAMAGED`, or the first of `sedge_map_fault` that applies.
     */
    sedge_map_count(octets: Uint8Array, limits: Partial<sedge_limits>, segments: Partial<Box>): number;
    /**
     * Writes segment `k`, counted from 0, of the segments that `sedge_map_count` counts: its flags, of
     * `sedge_segment_flags`, and where its data are in the octets. Each call starts from the first packet, so with
     * blocking the time for all segments of n packets grows as n * n. Returns what `sedge_map_count` does, or
     * `SEDGE_ABSENT` if there are fewer segments.
     */
    sedge_map_segment(octets: Uint8Array, limits: Partial<sedge_limits>, k: number, flags: Partial<Box>, data: Partial<sedge_part>): number;
    /**
     * Starts a board from the octets at the two places of the memory that survives restarts, 50 each. A place with
     * another number of octets, or with octets that are not a valid record, has no record. Pass a different mark at
     * each start, from a clock or at random: it is the mark of this loss if neither place has a record.
     */
    sedge_log_start(log: Partial<sedge_log>, first: Uint8Array, second: Uint8Array, mark: number): void;
    /**
     * Returns the program's next action, of `sedge_log_action`. The program completes this action and calls
     * `sedge_log_done` before it calls `sedge_log_next` again. For a write, `out` receives the 50 octets of the place;
     * otherwise it does not change. `number` receives the number of the command to be executed, or 0 for any other
     * action. Writes nothing and returns `SEDGE_WRONG_COUNT` if the buffer is not 50 octets long, or else
     * `SEDGE_DAMAGED` if the struct is damaged.
     */
    sedge_log_next(log: Partial<sedge_log>, out: Uint8Array, number: Partial<Box>): number;
    /**
     * Records that the action that `sedge_log_next` returned, with its number, is complete. Returns 0; or it changes
     * nothing and returns `SEDGE_DAMAGED`, or else `SEDGE_ABSENT` if the action or its number is not what
     * `sedge_log_next` returns.
     */
    sedge_log_done(log: Partial<sedge_log>, action: number, number: number): number;
    /**
     * Takes the octets of a packet that arrived, if it is the next command, and writes where the mission's octets are
     * in them. Keep the mission's octets until the command has been executed, after `sedge_log_next` has returned
     * `SEDGE_LOG_EXECUTE` with its number. Returns 0, or else drops the packet, changes and writes nothing, and returns
     * `SEDGE_DAMAGED` or the first that applies of 1 to 7 of `sedge_log_fault`: 1 Layout, then 2 Check, then 3
     * Starting, 4 Busy or 5 Lost, then 6 Behind or 7 Ahead.
     */
    sedge_log_offer(log: Partial<sedge_log>, octets: Uint8Array, content: Partial<sedge_part>): number;
    /**
     * Takes the octets of an order that arrived. An order to restart makes `SEDGE_LOG_RESTART` the next action. A board
     * that has lost its record continues with the one that the order brings, if the order has the mark of this loss.
     * Returns 0, or else drops the packet, changes nothing, and returns `SEDGE_DAMAGED` or the first that applies of 1
     * to 5 and 8 to 10 of `sedge_log_fault`: 1 Layout, then 2 Check; then for a restart 3 Starting, 4 Busy or 5 Lost,
     * and then 8 OtherBoot; for a record 9 NotLost, and then 10 OtherMark.
     */
    sedge_log_obey(log: Partial<sedge_log>, octets: Uint8Array): number;
    /**
     * Writes the status for telemetry, 27 octets, with the number of commands that wait on board to be offered; a
     * number above 255 is written as 255. Returns 0, or the first of `SEDGE_WRONG_COUNT`, if the buffer is not 27
     * octets long, and `SEDGE_DAMAGED`.
     */
    sedge_log_status(log: Partial<sedge_log>, waiting: number, out: Uint8Array): number;
    /**
     * Writes the record of a new board, the 50 octets that both places have before the board starts for the first time.
     * Returns 0, or `SEDGE_WRONG_COUNT` if the buffer is not 50 octets long.
     */
    sedge_log_new_record(out: Uint8Array): number;
    /**
     * Reads a status that arrived. Returns 0, or the first of 1 to 2 of `sedge_log_fault` that applies: 1 Layout if the
     * octets are not 27, then 2 Check.
     */
    sedge_log_status_decode(octets: Uint8Array, status: Partial<sedge_board_status>): number;
    /**
     * Writes a command packet with this APID, sequence count and number and with the mission's octets to the beginning
     * of `out`. Writes its length in octets, 14 more than the mission's, to `total`. Returns 0, or the first of
     * `SEDGE_LOG_FIELD_RANGE` (the APID is above 2,047, the count above 16,383, the number 0, or the mission's octets
     * are more than 65,528) and `SEDGE_LOG_ROOM`.
     */
    sedge_log_command_encode(apid: number, count: number, number: number, content: Uint8Array, out: Uint8Array, total: Partial<Box>): number;
    /**
     * Writes an order as a packet with this APID and sequence count to the beginning of `out`, and its length, 23
     * octets, to `total`. Returns 0, or the first of `SEDGE_DAMAGED` (the kind is not in its enumeration, or a restart
     * has a last number or a mark), `SEDGE_LOG_FIELD_RANGE` (the APID is above 2,047 or the count above 16,383) and
     * `SEDGE_LOG_ROOM`.
     */
    sedge_log_order_encode(order: Partial<sedge_log_order>, apid: number, count: number, out: Uint8Array, total: Partial<Box>): number;
    /**
     * Returns the history after one more command packet: CRC-32 continued over the packet's check, its last four
     * octets. The history of no packets is 0. A ground can compute it for the packets that it sends, and compare it
     * with a status.
     */
    sedge_log_history_after(history: number, packet: Uint8Array): number;
    /** The name of a `sedge_clcw_fault`. */
    sedge_clcw_fault_name(fault: number): string;
    /** The name of a `sedge_cop_fault`. */
    sedge_cop_fault_name(fault: number): string;
    /** The name of a `sedge_verdict`. */
    sedge_verdict_name(verdict: number): string;
    /** The name of a `sedge_alert`. */
    sedge_alert_name(alert: number): string;
    /** The name of a `sedge_tc_fault`. */
    sedge_tc_fault_name(fault: number): string;
    /** The name of a `sedge_packet_fault`. */
    sedge_packet_fault_name(fault: number): string;
    /** The name of a `sedge_tm_fault`. */
    sedge_tm_fault_name(fault: number): string;
    /** The name of a `sedge_map_fault`. */
    sedge_map_fault_name(fault: number): string;
    /** The name of a `sedge_dropped`. */
    sedge_dropped_name(cause: number): string;
    /** The name of a `sedge_log_fault`. */
    sedge_log_fault_name(fault: number): string;
    /**
     * Returns whether a `sedge_alert` shows a broken condition of the link (README.md): true for `SEDGE_ALERT_LOCKOUT`,
     * `SEDGE_ALERT_NNR`, `SEDGE_ALERT_CLCW` and `SEDGE_ALERT_SYNCH`. If the session was begun by check, Unlock or Set
     * V(R) and confirmed by a CLCW, a condition was broken: for example, the board restarted, the link reorders or
     * repeats frames, or there is a second station. Otherwise the receiver's earlier state may be the cause. Nothing is
     * then known of what is on board: begin again, as after a reset. Returns false for any other number. After other
     * alerts, the next session can resume where this one ended.
     */
    sedge_alert_shows_broken_condition(alert: number): boolean;
    /**
     * Returns what to look for after a `sedge_alert`, and how to recover, in words for an operator; "?" for any other
     * number.
     */
    sedge_alert_advice(alert: number): string;
    /**
     * Writes the default of each parameter. A program begins with the defaults, and sets the parameters that differ in
     * its mission.
     */
    sedge_config_default(config: Partial<sedge_config>): void;
    /**
     * Returns the first parameter that is out of range, of `sedge_parameter`; `SEDGE_NO_PARAMETER` for none. A `width`
     * is also out of range if it is odd, and a `window` if it is more than half the width.
     */
    sedge_config_fault(config: Partial<sedge_config>): number;
    /** The name of a `sedge_parameter`: its field in `sedge_config`. */
    sedge_parameter_name(number: number): string;
    /** The name of a `sedge_node_status` of 1 to 10, else "?". */
    sedge_link_fault_name(number: number): string;
    /**
     * Opens a ground, which replaces any ground that the handle holds. The old ground is released once the new one is
     * built: it stays if the call is refused, and until then both occupy memory. If there is memory only for one, close
     * the handle first. Returns 0, `SEDGE_NODE_OUT_OF_RANGE` or `SEDGE_NODE_MEMORY`.
     */
    sedge_ground_open(ground: Partial<sedge_ground>, config: Partial<sedge_config>): number;
    /** Closes the ground, if there is one; the handle then holds none. */
    sedge_ground_close(ground: Partial<sedge_ground>): void;
    /**
     * Gives the ground's sender a directive, of `sedge_directive` (sedgechisel.h), with its value; a directive without
     * a value ignores it. Returns 0, or `SEDGE_COP_WRONG_STATE`, or for a value out of range `SEDGE_COP_WINDOW`,
     * `SEDGE_COP_LIMIT` or `SEDGE_COP_TIMER`. Returns `SEDGE_NODE_NONE` also for a number that is not a directive, and
     * for a V(R) or V(S) above 255.
     */
    sedge_ground_directive(ground: Partial<sedge_ground>, directive: number, value: number): number;
    /**
     * Submits one packet on a MAP under sequence control, or several if blocking is on. `sedge_map_count` writes the
     * number of their segments. `sedge_ground_resume` is promised to count correctly only the submissions that are one
     * packet, or packets that share one segment. Returns 0, or the first of 1 to 5 of `sedge_node_status` that applies,
     * or `SEDGE_NODE_MEMORY`.
     */
    sedge_ground_submit(ground: Partial<sedge_ground>, map: number, octets: Uint8Array): number;
    /**
     * Submits one packet on a MAP by bypass (Type-BD). Returns 0, or the first of 2 to 5 of `sedge_node_status` that
     * applies, or `SEDGE_NODE_MEMORY`.
     */
    sedge_ground_bypass(ground: Partial<sedge_ground>, map: number, octets: Uint8Array): number;
    /**
     * Writes the length in octets of the next frame for the link, 8 to 1,024, or 0 if nothing is to be sent. Returns 0.
     */
    sedge_ground_next(ground: Partial<sedge_ground>, count: Partial<Box>): number;
    /**
     * Takes the next frame for the link, with its FECF (232.0-B-4, 4.1). Writes it and the number of its octets, or 0
     * octets if nothing is to be sent. Returns 0 or `SEDGE_NODE_ROOM`.
     */
    sedge_ground_pull(ground: Partial<sedge_ground>, out: Uint8Array, count: Partial<Box>): number;
    /**
     * Writes the next frame for the link as `sedge_ground_pull` does; the ground does not change. If the radio may
     * refuse a frame, call `sedge_ground_advance` once it has taken this one: the frame then counts as sent. Returns 0
     * or `SEDGE_NODE_ROOM`.
     */
    sedge_ground_peek(ground: Partial<sedge_ground>, out: Uint8Array, count: Partial<Box>): number;
    /**
     * Counts the next frame for the link as sent, as `sedge_ground_pull` does. If nothing is to be sent, nothing
     * changes. Returns 0.
     */
    sedge_ground_advance(ground: Partial<sedge_ground>): number;
    /**
     * Takes octets that came from the spacecraft, and writes what they are. Returns 0, or `SEDGE_NODE_MEMORY`, which is
     * possible only if they complete a packet.
     */
    sedge_ground_telemetry(ground: Partial<sedge_ground>, octets: Uint8Array, heard: Partial<sedge_heard>): number;
    /**
     * Takes a CLCW that came by itself, as a front end forwards it (232.0-B-4, 4.2), and writes what becomes of it, as
     * `sedge_ground_telemetry` does for a frame's CLCW. Telemetry is not touched. Until the next CLCW, the front end
     * may repeat the newest one since the initiation (docs/PROFILE.md, "An idle start"); it must not forward an older
     * one as if it were new. Returns 0, or `SEDGE_NODE_ABSENT` if the octets are not four.
     */
    sedge_ground_clcw(ground: Partial<sedge_ground>, octets: Uint8Array, heard: Partial<sedge_heard>): number;
    /**
     * Restarts the extraction of packets from telemetry, for example after a restart of the spacecraft, whose frame
     * counts then continue from other values. An unfinished packet is dropped, and the next frame counts as the first
     * (132.0-B-3, 4.3.2). Packets that wait to be taken stay. Returns 0.
     */
    sedge_ground_forget_telemetry(ground: Partial<sedge_ground>): number;
    /**
     * Writes the CLCW that a telemetry frame of any spacecraft and virtual channel carries (232.0-B-4, 4.2); the ground
     * does not change. Returns 0, or `SEDGE_NODE_ABSENT` if the octets do not form a valid frame or the frame carries
     * no CLCW.
     */
    sedge_ground_clcw_in(ground: Partial<sedge_ground>, octets: Uint8Array, word: Partial<sedge_clcw>): number;
    /** Writes the length in octets of the oldest telemetry packet, 7 to 65,542, or 0 if none waits. Returns 0. */
    sedge_ground_next_telemetry(ground: Partial<sedge_ground>, count: Partial<Box>): number;
    /**
     * Takes the oldest telemetry packet (132.0-B-3, 4.3.2). Writes it and the number of its octets, or 0 octets if none
     * waits. Returns 0 or `SEDGE_NODE_ROOM`.
     */
    sedge_ground_take_telemetry(ground: Partial<sedge_ground>, out: Uint8Array, count: Partial<Box>): number;
    /** Counts a tick of the clock. Returns the alert, of `sedge_alert`, `SEDGE_NO_ALERT` for none. */
    sedge_ground_tick(ground: Partial<sedge_ground>): number;
    /**
     * Reads the ground: how far its submissions have come; the sender's state, V(S), NN(R), transmission count and
     * timer; what is outstanding and what waits; and the length of a telemetry frame. The ground does not change.
     * Returns 0.
     */
    sedge_ground_read(ground: Partial<sedge_ground>, read: Partial<sedge_ground_reading>): number;
    /**
     * Writes how many of the segments that were sent and not acknowledged were accepted on board when a CLCW with this
     * value was made: the oldest ones (232.1-B-2, 5.1). The call still does so after an alert, until V(S) is set or an
     * initiation begins. But it uses only the numbers: after an alert that shows a broken condition, nothing is known
     * of these segments, whatever it writes. If V(S) is NN(R), there are no such segments, and it writes 0 for every
     * value. Returns 0, or `SEDGE_NODE_ABSENT` if V(S) is not NN(R) and the value does not lie from NN(R) to V(S):
     * nothing is then known of the segments.
     */
    sedge_ground_accepted_beyond(ground: Partial<sedge_ground>, value: number, accepted: Partial<Box>): number;
    /**
     * Writes how many of the session's submissions, counted from the first, a CLCW with this value shows to be on board
     * whole: those that are acknowledged, and those whose segments were all accepted according to the CLCW (232.1-B-2,
     * 5.1). The call still does so after an alert. Returns 0, or `SEDGE_NODE_ABSENT` if nothing is known: no session
     * has begun, V(S) was set or an alert has shown a broken condition since, or V(S) is not NN(R) and the value does
     * not lie from NN(R) to V(S).
     */
    sedge_ground_known_on_board(ground: Partial<sedge_ground>, value: number, whole: Partial<Box>): number;
    /**
     * Begins the next session after an alert, where the ended one stopped. Sets V(S) to the value of a CLCW that was
     * made when nothing was in transit on the uplink, and begins by Unlock (232.1-B-2, 5.2.4). If V(S) is NN(R), the
     * call accepts any value, so compare the value with V(S) first. Writes how many of the ended session's submissions,
     * counted from the first, are on board whole; resubmit the rest. If a submission of several packets has more octets
     * than a segment takes (`part`), it is whole only with its last packet: some of its packets may be on board
     * already, and be delivered again. Returns 0. Changes nothing and returns `SEDGE_NODE_NOT_KNOWN` (10) if the sender
     * is not in S6, no session has begun, V(S) was set or an alert has shown a broken condition since, or V(S) is not
     * NN(R) and the value does not lie from NN(R) to V(S).
     */
    sedge_ground_resume(ground: Partial<sedge_ground>, value: number, whole: Partial<Box>): number;
    /**
     * Writes the ground's record, which has a fixed size; the ground does not change. Store the record after each call,
     * and after `sedge_ground_pull` before the frame is sent. If the ground is lost, `sedge_ground_open_kept` opens
     * another one from the record. The record contains nothing of submissions that were not sent whole, of bypass
     * packets, of telemetry, or of what directives set. Returns 0.
     */
    sedge_ground_kept(ground: Partial<sedge_ground>, kept: Partial<sedge_kept_ground>): number;
    /**
     * Opens a ground that continues from the record of a lost one, which `sedge_ground_kept` wrote. It is in S6, with
     * the V(S), the NN(R) and the counts of submissions of the record. The new ground is the lost one after Terminate,
     * without what waited, and with the window, the limit and the timer of the configuration. So `sedge_ground_resume`
     * can begin the next session, as after an alert. A ground that the handle holds is treated as by
     * `sedge_ground_open`. Returns 0, `SEDGE_NODE_OUT_OF_RANGE` (also for a record that no ground of this configuration
     * writes) or `SEDGE_NODE_MEMORY`.
     */
    sedge_ground_open_kept(ground: Partial<sedge_ground>, config: Partial<sedge_config>, kept: Partial<sedge_kept_ground>): number;
    /**
     * Opens a spacecraft, which replaces any that the handle holds, as `sedge_ground_open` does. Returns 0,
     * `SEDGE_NODE_OUT_OF_RANGE` or `SEDGE_NODE_MEMORY`.
     */
    sedge_spacecraft_open(spacecraft: Partial<sedge_spacecraft>, config: Partial<sedge_config>): number;
    /** Closes the spacecraft, if there is one; the handle then holds none. */
    sedge_spacecraft_close(spacecraft: Partial<sedge_spacecraft>): void;
    /**
     * Takes octets that came from the ground, and writes what they are. Returns 0, or `SEDGE_NODE_MEMORY`, which is
     * possible only if a frame's data are passed on.
     */
    sedge_spacecraft_receive(spacecraft: Partial<sedge_spacecraft>, octets: Uint8Array, received: Partial<sedge_received>): number;
    /**
     * Writes the MAP of the oldest packet of sequence-controlled frames, and the number of its octets, 7 to 65,542; or
     * writes only 0 to `count` if none waits. Returns 0.
     */
    sedge_spacecraft_next(spacecraft: Partial<sedge_spacecraft>, map: Partial<Box>, count: Partial<Box>): number;
    /**
     * Takes the oldest packet of sequence-controlled frames (232.0-B-4, 4.4). Writes its MAP, the packet, and the
     * number of its octets; or writes only 0 to `count` if none waits. Returns 0 or `SEDGE_NODE_ROOM`.
     */
    sedge_spacecraft_take(spacecraft: Partial<sedge_spacecraft>, map: Partial<Box>, out: Uint8Array, count: Partial<Box>): number;
    /**
     * Writes the MAP and the number of octets of the oldest bypass packet, as `sedge_spacecraft_next` does. Returns 0.
     */
    sedge_spacecraft_next_bypass(spacecraft: Partial<sedge_spacecraft>, map: Partial<Box>, count: Partial<Box>): number;
    /**
     * Takes the oldest bypass packet (232.0-B-4, 4.4), as `sedge_spacecraft_take` does. Returns 0 or `SEDGE_NODE_ROOM`.
     */
    sedge_spacecraft_take_bypass(spacecraft: Partial<sedge_spacecraft>, map: Partial<Box>, out: Uint8Array, count: Partial<Box>): number;
    /**
     * Queues a packet to be sent as telemetry (132.0-B-3, 4.2.2). Returns 0, or the first of `SEDGE_TM_NOT_A_PACKET`
     * (the octets are not exactly one packet, or are an idle one) and `SEDGE_TM_MEMORY`.
     */
    sedge_spacecraft_telemetry(spacecraft: Partial<sedge_spacecraft>, packet: Uint8Array): number;
    /**
     * Writes the next telemetry frame (132.0-B-3, 4.1), which reports on the receiver, and the number of its octets,
     * which is frame_length. Returns 0 or `SEDGE_NODE_ROOM`.
     */
    sedge_spacecraft_telemetry_frame(spacecraft: Partial<sedge_spacecraft>, out: Uint8Array, count: Partial<Box>): number;
    /**
     * Reads the spacecraft: the length of a telemetry frame, how many packets wait, the CLCW that the next frame
     * carries, that frame's counts, and the receiver's state. The spacecraft does not change. Returns 0.
     */
    sedge_spacecraft_read(spacecraft: Partial<sedge_spacecraft>, read: Partial<sedge_spacecraft_reading>): number;
    /**
     * Opens a spacecraft that continues with what `sedge_spacecraft_read` wrote before a deliberate restart: V(R) (in
     * `value`), `farm_b`, and the telemetry frame counts. The other fields are not read. The receiver is Open with no
     * flag set, and no packet is on board. Replaces a spacecraft as `sedge_spacecraft_open` does. Returns 0,
     * `SEDGE_NODE_OUT_OF_RANGE` (also if `farm_b` is above 3) or `SEDGE_NODE_MEMORY`.
     */
    sedge_spacecraft_open_kept(spacecraft: Partial<sedge_spacecraft>, config: Partial<sedge_config>, kept: Partial<sedge_spacecraft_reading>): number;
    /** Closes the commander, if there is one; the handle then holds none. */
    sedge_commander_close(commander: Partial<sedge_commander>): void;
    /**
     * Opens a commander, with a ground in S6, from the octets of its store; a new store has none. The commander
     * replaces any that the handle holds, as `sedge_ground_open` does. Writes how many octets of the store are good:
     * truncate the store to this length before you append to it. Returns 0, `SEDGE_LEDGER_OUT_OF_RANGE` (a parameter,
     * or `holds`), or the first that applies of `SEDGE_LEDGER_FIELD_RANGE` (the MAP of orders is not open, or their
     * APID is above 2,046), `SEDGE_LEDGER_TOO_LONG` (`part` or `max_packet` is below 23) and `SEDGE_LEDGER_MEMORY`.
     */
    sedge_commander_open(commander: Partial<sedge_commander>, config: Partial<sedge_config>, mission: Partial<sedge_mission>, store: Uint8Array, good: Partial<Box>): number;
    /**
     * Gives the commander a command, after all others, and writes its number. The commander writes the command packet;
     * `apid` and `sequence` are its APID and its sequence count, and `content` the mission's octets. `tag` is the
     * caller's own: give each command another one, because reports carry only the tag. Returns 0, or the first that
     * applies of `SEDGE_LEDGER_FIELD_RANGE` (a MAP that is not open, an APID above 2,046, a sequence count above
     * 16,383, or more than 65,528 octets), `SEDGE_LEDGER_TOO_LONG`, `SEDGE_LEDGER_NO_NUMBER` and `SEDGE_LEDGER_MEMORY`.
     */
    sedge_commander_command(commander: Partial<sedge_commander>, tag: bigint, map: number, apid: number, sequence: number, content: Uint8Array, number: Partial<Box>): number;
    /**
     * Takes octets that came from the board, exactly one telemetry frame, and writes what they are, as
     * `sedge_ground_telemetry` does. `sedge_commander_take_telemetry` then takes its packets. Returns 0 or
     * `SEDGE_LEDGER_MEMORY`.
     */
    sedge_commander_telemetry(commander: Partial<sedge_commander>, octets: Uint8Array, heard: Partial<sedge_heard>): number;
    /**
     * Takes a CLCW that came by itself, and writes what becomes of it, as `sedge_ground_clcw` does. Returns 0, or
     * `SEDGE_LEDGER_ABSENT` if the octets are not four.
     */
    sedge_commander_clcw(commander: Partial<sedge_commander>, octets: Uint8Array, heard: Partial<sedge_heard>): number;
    /**
     * Takes the octets of a status that came without a packet. (`sedge_commander_take_telemetry` takes those in
     * telemetry by itself.) A status that contains nothing new changes nothing. Returns 0, or the first that applies of
     * `SEDGE_LEDGER_LAYOUT` (not 27 octets), `SEDGE_LEDGER_CHECK` and `SEDGE_LEDGER_MEMORY`.
     */
    sedge_commander_status(commander: Partial<sedge_commander>, octets: Uint8Array): number;
    /** Counts a tick of the clock. An alert is the next action of `sedge_commander_next`. Returns 0. */
    sedge_commander_tick(commander: Partial<sedge_commander>): number;
    /**
     * Writes the program's next action. The program completes it before it calls this again. A frame is written to the
     * beginning of `out`, whose other octets stay. Returns 0, or the first that applies of `SEDGE_LEDGER_ROOM` (the
     * buffer is shorter than 1,024 octets) and `SEDGE_LEDGER_MEMORY`.
     */
    sedge_commander_next(commander: Partial<sedge_commander>, action: Partial<sedge_commander_action>, out: Uint8Array): number;
    /**
     * Writes the octets that must be appended to the store, and their number; 0 octets unless `sedge_commander_next`
     * writes STORE, with this number. Returns 0 or `SEDGE_LEDGER_ROOM`.
     */
    sedge_commander_unstored(commander: Partial<sedge_commander>, out: Uint8Array, count: Partial<Box>): number;
    /**
     * Records that all octets of `sedge_commander_unstored` are in the store; `count` is their number. Call nothing
     * else of the commander between the two: a command or a status adds octets. Returns 0, or changes nothing and
     * returns `SEDGE_LEDGER_ABSENT` if this is not the number of octets that are due: if octets were appended, open the
     * commander from the store again.
     */
    sedge_commander_stored(commander: Partial<sedge_commander>, count: number): number;
    /**
     * Records that this action of `sedge_commander_next`, EXECUTED, UNKNOWN, RESTARTED, RECORD_LOST or FOREIGN, was
     * reported to the user. After RESTARTED and RECORD_LOST the session ends. Returns 0, or the first that applies of
     * `SEDGE_LEDGER_ABSENT` (it is not the next action) and `SEDGE_LEDGER_MEMORY`.
     */
    sedge_commander_told(commander: Partial<sedge_commander>, action: Partial<sedge_commander_action>): number;
    /** Writes the length in octets of the oldest telemetry packet, 7 to 65,542, or 0 if none waits. Returns 0. */
    sedge_commander_next_telemetry(commander: Partial<sedge_commander>, count: Partial<Box>): number;
    /**
     * Takes the oldest telemetry packet. Writes it and the number of its octets, or 0 octets if none waits. If it has
     * the APID of the board's status and 27 octets of data, the commander also takes it as a status. Returns 0, or the
     * first that applies of `SEDGE_LEDGER_ROOM` and `SEDGE_LEDGER_MEMORY`.
     */
    sedge_commander_take_telemetry(commander: Partial<sedge_commander>, out: Uint8Array, count: Partial<Box>): number;
    /**
     * Writes the progress of the command with this number, of `sedge_progress`, by COP-1 in the current session or, if
     * none is open, the last one. Only EXECUTED of `sedge_commander_next` states that it was executed. Returns 0, or
     * `SEDGE_LEDGER_ABSENT` if the command has a fate or was not given.
     */
    sedge_commander_progress(commander: Partial<sedge_commander>, number: number, progress: Partial<Box>): number;
    /**
     * Stops the submission of commands to the ground until `sedge_commander_go_on`. The ground still sends the commands
     * that were submitted. Returns 0.
     */
    sedge_commander_pause(commander: Partial<sedge_commander>): number;
    /** Resumes the submission of commands. Returns 0. */
    sedge_commander_go_on(commander: Partial<sedge_commander>): number;
    /**
     * Has the order to restart sent to the board, until a restart of the board or the loss of its record is reported.
     * Returns 0.
     */
    sedge_commander_restart_board(commander: Partial<sedge_commander>): number;
    /**
     * Makes the order that brings a record to a board that has lost its own; an operator decides this. Once a status
     * shows that the board obeyed it, each command that was stored by now and has no fate is UNKNOWN, whether or not it
     * was sent. Returns 0, or the first that applies of `SEDGE_LEDGER_NOT_LOST`, `SEDGE_LEDGER_NO_BOOT` and
     * `SEDGE_LEDGER_MEMORY`.
     */
    sedge_commander_rebuild(commander: Partial<sedge_commander>): number;
    /**
     * Reads the commander: which commands have no fate yet, and whether a fresh store is worth its writing. The
     * commander does not change. Returns 0.
     */
    sedge_commander_read(commander: Partial<sedge_commander>, read: Partial<sedge_commander_reading>): number;
    /** Reads the commander's ground, as `sedge_ground_read` does. Returns 0. */
    sedge_commander_read_ground(commander: Partial<sedge_commander>, read: Partial<sedge_ground_reading>): number;
    /**
     * Writes the octets of a fresh store of the same commands, and their number; the commander does not change. Write
     * them to a new file, replace the store with it, and call `sedge_commander_renewed`; append nothing to the store
     * meanwhile. If `worth` of `sedge_commander_read` is 1, half the length of the present store is room enough.
     * Returns 0, or the first that applies of `SEDGE_LEDGER_OWING` (something must be stored or reported first),
     * `SEDGE_LEDGER_MEMORY` and `SEDGE_LEDGER_ROOM`.
     */
    sedge_commander_fresh(commander: Partial<sedge_commander>, out: Uint8Array, count: Partial<Box>): number;
    /**
     * Records that the store now has this many octets, which begin with those of `sedge_commander_fresh`. Returns 0.
     */
    sedge_commander_renewed(commander: Partial<sedge_commander>, count: number): number;
    /** Returns the name of a `sedge_ledger_fault` of 1 to 9; "?" for another number. */
    sedge_ledger_fault_name(number: number): string;
    /**
     * Opens a link with two new nodes, which replaces any that the handle holds, as `sedge_ground_open` does. Returns
     * 0, `SEDGE_NODE_OUT_OF_RANGE` or `SEDGE_NODE_MEMORY`.
     */
    sedge_sim_open(sim: Partial<sedge_sim>, config: Partial<sedge_config>): number;
    /** Closes the link, if there is one; the handle then holds none. */
    sedge_sim_close(sim: Partial<sedge_sim>): void;
    /** Returns the name of a `sedge_sim_fault`; "?" for another number. */
    sedge_sim_fault_name(number: number): string;
    /**
     * Lets an event happen. Returns 0 and writes the reply; a node's refusal is a reply too. Returns a number of
     * `sedge_sim_fault` if nothing happens; it is not `SEDGE_SIM_MEMORY` for a directive, a resumption, a loss, damage,
     * a CLCW by itself, a tick or a take. Returns `SEDGE_NODE_NONE` also for a number that is not a kind, for a
     * directive and a value for which `sedge_ground_directive` returns it, and for a resumption with a value above 255.
     * The octets of a frame that was sent, and of a packet that was taken, can be read until the next event
     * (`sedge_sim_octets`).
     */
    sedge_sim_step(sim: Partial<sedge_sim>, event: Partial<sedge_event>, reply: Partial<sedge_reply>): number;
    /**
     * Writes the octets of the last event's frame or packet, and their number, which is the reply's `count`; or 0
     * octets if the reply had none. They can be read again. Returns 0 or `SEDGE_NODE_ROOM`.
     */
    sedge_sim_octets(sim: Partial<sedge_sim>, out: Uint8Array, count: Partial<Box>): number;
    /** Reads the link: how the session began and how far it is. The link does not change. Returns 0. */
    sedge_sim_read(sim: Partial<sedge_sim>, read: Partial<sedge_sim_reading>): number;
    /** Reads the link's ground, as `sedge_ground_read` reads a ground. The link does not change. Returns 0. */
    sedge_sim_ground_read(sim: Partial<sedge_sim>, read: Partial<sedge_ground_reading>): number;
    /**
     * Reads the link's spacecraft, as `sedge_spacecraft_read` reads a spacecraft. The link does not change. Returns 0.
     */
    sedge_sim_spacecraft_read(sim: Partial<sedge_sim>, read: Partial<sedge_spacecraft_reading>): number;
    /**
     * Writes how many submissions the session has: the calls of `sedge_sim_submit` that the ground accepted. Returns 0.
     */
    sedge_sim_submissions(sim: Partial<sedge_sim>, count: Partial<Box>): number;
    /**
     * Writes the MAP of submission `k`, in order from 0, and the number of its octets. Returns 0, or
     * `SEDGE_NODE_ABSENT` if there are not that many.
     */
    sedge_sim_submission_length(sim: Partial<sedge_sim>, k: number, map: Partial<Box>, count: Partial<Box>): number;
    /**
     * Writes the MAP and the octets of submission `k`, and their number. Returns 0, or the first of `SEDGE_NODE_ABSENT`
     * and `SEDGE_NODE_ROOM`.
     */
    sedge_sim_submission(sim: Partial<sedge_sim>, k: number, map: Partial<Box>, out: Uint8Array, count: Partial<Box>): number;
    /**
     * Writes how many entries a record has, of `sedge_record`; the MAP matters only for `SEDGE_SUBMITTED` and
     * `SEDGE_DELIVERED`. For any other number, writes 0. Returns 0.
     */
    sedge_sim_count(sim: Partial<sedge_sim>, record: number, map: number, entries: Partial<Box>): number;
    /**
     * Writes how many octets entry `k` has, counted from 0. Returns 0, or `SEDGE_NODE_ABSENT` if there are not that
     * many entries.
     */
    sedge_sim_entry_length(sim: Partial<sedge_sim>, record: number, map: number, k: number, count: Partial<Box>): number;
    /**
     * Writes the octets of entry `k`, and their number. Returns 0, or the first of `SEDGE_NODE_ABSENT` and
     * `SEDGE_NODE_ROOM`.
     */
    sedge_sim_entry(sim: Partial<sedge_sim>, record: number, map: number, k: number, out: Uint8Array, count: Partial<Box>): number;
}

/** Makes the calls of a module that web/build made. */
export function load(source: BufferSource | WebAssembly.Module): Promise<Calls>;
/** The numbers of the headers, by their names there. */
export const numbers: {
    readonly SEDGE_OK: 0;
    readonly SEDGE_ABSENT: 253;
    readonly SEDGE_WRONG_COUNT: 254;
    readonly SEDGE_DAMAGED: 255;
    readonly SEDGE_CLCW_KIND: 1;
    readonly SEDGE_CLCW_VERSION: 2;
    readonly SEDGE_CLCW_COP: 3;
    readonly SEDGE_CLCW_SPARE: 4;
    readonly SEDGE_CLCW_RANGE: 5;
    readonly SEDGE_CLCW_RETRANSMIT: 8;
    readonly SEDGE_CLCW_WAIT: 16;
    readonly SEDGE_CLCW_LOCKOUT: 32;
    readonly SEDGE_CLCW_NO_BIT_LOCK: 64;
    readonly SEDGE_CLCW_NO_RF: 128;
    readonly SEDGE_COP_WIDTH: 1;
    readonly SEDGE_COP_WINDOW: 2;
    readonly SEDGE_COP_LIMIT: 3;
    readonly SEDGE_COP_TIMER: 4;
    readonly SEDGE_COP_NOT_OPEN: 6;
    readonly SEDGE_COP_BUSY: 7;
    readonly SEDGE_COP_WRONG_STATE: 8;
    readonly SEDGE_ACCEPTED: 0;
    readonly SEDGE_AHEAD: 1;
    readonly SEDGE_NO_BUFFER: 2;
    readonly SEDGE_BEHIND: 3;
    readonly SEDGE_OUTSIDE: 4;
    readonly SEDGE_DISCARDED: 5;
    readonly SEDGE_FARM_OPEN: 0;
    readonly SEDGE_FARM_WAIT: 1;
    readonly SEDGE_FARM_LOCKOUT: 2;
    readonly SEDGE_FOP_S1: 1;
    readonly SEDGE_FOP_S2: 2;
    readonly SEDGE_FOP_S3: 3;
    readonly SEDGE_FOP_S4: 4;
    readonly SEDGE_FOP_S5: 5;
    readonly SEDGE_FOP_S6: 6;
    readonly SEDGE_CONTROL_IDLE: 0;
    readonly SEDGE_CONTROL_UNLOCK_DUE: 1;
    readonly SEDGE_CONTROL_UNLOCK_SENT: 2;
    readonly SEDGE_CONTROL_SET_VR_DUE: 3;
    readonly SEDGE_CONTROL_SET_VR_SENT: 4;
    readonly SEDGE_NO_ALERT: 0;
    readonly SEDGE_ALERT_LOCKOUT: 1;
    readonly SEDGE_ALERT_NNR: 2;
    readonly SEDGE_ALERT_CLCW: 3;
    readonly SEDGE_ALERT_SYNCH: 4;
    readonly SEDGE_ALERT_LIMIT: 5;
    readonly SEDGE_ALERT_TIMER: 6;
    readonly SEDGE_ALERT_TERMINATED: 7;
    readonly SEDGE_NEXT_NOTHING: 0;
    readonly SEDGE_NEXT_UNLOCK: 1;
    readonly SEDGE_NEXT_SET_VR: 2;
    readonly SEDGE_NEXT_FIRST: 3;
    readonly SEDGE_NEXT_AGAIN: 4;
    readonly SEDGE_INIT_WITHOUT_CHECK: 1;
    readonly SEDGE_INIT_WITH_CHECK: 2;
    readonly SEDGE_INIT_UNLOCK: 3;
    readonly SEDGE_INIT_SET_VR: 4;
    readonly SEDGE_TERMINATE: 5;
    readonly SEDGE_SET_VS: 6;
    readonly SEDGE_SET_WINDOW: 7;
    readonly SEDGE_SET_LIMIT: 8;
    readonly SEDGE_SET_TIMER: 9;
    readonly SEDGE_TC_SHORT: 1;
    readonly SEDGE_TC_VERSION: 2;
    readonly SEDGE_TC_RESERVED_TYPE: 3;
    readonly SEDGE_TC_SPARE: 4;
    readonly SEDGE_TC_LENGTH: 5;
    readonly SEDGE_TC_CHECK: 6;
    readonly SEDGE_TC_BYPASS_NUMBER: 7;
    readonly SEDGE_TC_EMPTY_DATA: 8;
    readonly SEDGE_TC_COMMAND: 9;
    readonly SEDGE_TC_ROOM: 10;
    readonly SEDGE_TC_FIELD_RANGE: 11;
    readonly SEDGE_TC_AD: 0;
    readonly SEDGE_TC_BD: 1;
    readonly SEDGE_TC_BC: 2;
    readonly SEDGE_SEGMENT_CONTINUING: 0;
    readonly SEDGE_SEGMENT_FIRST: 1;
    readonly SEDGE_SEGMENT_LAST: 2;
    readonly SEDGE_SEGMENT_ALONE: 3;
    readonly SEDGE_UNLOCK: 0;
    readonly SEDGE_SET_VR: 1;
    readonly SEDGE_PACKET_TRUNCATED: 1;
    readonly SEDGE_PACKET_VERSION: 2;
    readonly SEDGE_PACKET_IDLE_WITH_SECONDARY: 3;
    readonly SEDGE_PACKET_ROOM: 4;
    readonly SEDGE_PACKET_FIELD_RANGE: 5;
    readonly SEDGE_PACKET_TELEMETRY: 0;
    readonly SEDGE_PACKET_TELECOMMAND: 1;
    readonly SEDGE_SEQUENCE_CONTINUATION: 0;
    readonly SEDGE_SEQUENCE_FIRST: 1;
    readonly SEDGE_SEQUENCE_LAST: 2;
    readonly SEDGE_SEQUENCE_UNSEGMENTED: 3;
    readonly SEDGE_TM_LENGTH: 1;
    readonly SEDGE_TM_VERSION: 2;
    readonly SEDGE_TM_CHECK: 3;
    readonly SEDGE_TM_STATUS: 4;
    readonly SEDGE_TM_POINTER: 5;
    readonly SEDGE_TM_NO_OCF: 6;
    readonly SEDGE_TM_MEMORY: 7;
    readonly SEDGE_TM_NOT_A_PACKET: 8;
    readonly SEDGE_TM_ROOM: 9;
    readonly SEDGE_TM_FIELD_RANGE: 10;
    readonly SEDGE_POINTER_ONLY_IDLE: 2046;
    readonly SEDGE_POINTER_NO_START: 2047;
    readonly SEDGE_NOT_DROPPED: 0;
    readonly SEDGE_DROPPED_CLOSED_MAP: 1;
    readonly SEDGE_DROPPED_INTERRUPTED: 2;
    readonly SEDGE_DROPPED_NO_BEGINNING: 3;
    readonly SEDGE_DROPPED_NOT_A_PACKET: 4;
    readonly SEDGE_DROPPED_TOO_LONG: 5;
    readonly SEDGE_NO_PACKET: 0;
    readonly SEDGE_IN_MEMORY: 1;
    readonly SEDGE_IN_DATA: 2;
    readonly SEDGE_MAP_NOT_A_PACKET: 1;
    readonly SEDGE_MAP_TOO_LONG: 2;
    readonly SEDGE_LOG_LAYOUT: 1;
    readonly SEDGE_LOG_CHECK: 2;
    readonly SEDGE_LOG_STARTING: 3;
    readonly SEDGE_LOG_BUSY: 4;
    readonly SEDGE_LOG_LOST: 5;
    readonly SEDGE_LOG_BEHIND: 6;
    readonly SEDGE_LOG_AHEAD: 7;
    readonly SEDGE_LOG_OTHER_BOOT: 8;
    readonly SEDGE_LOG_NOT_LOST: 9;
    readonly SEDGE_LOG_OTHER_MARK: 10;
    readonly SEDGE_LOG_FIELD_RANGE: 11;
    readonly SEDGE_LOG_ROOM: 12;
    readonly SEDGE_LOG_NOTHING: 0;
    readonly SEDGE_LOG_WRITE_FIRST: 1;
    readonly SEDGE_LOG_WRITE_SECOND: 2;
    readonly SEDGE_LOG_EXECUTE: 3;
    readonly SEDGE_LOG_RESTART: 4;
    readonly SEDGE_LOG_STATUS_SAYS: 0;
    readonly SEDGE_LOG_STATUS_CHANGES: 1;
    readonly SEDGE_LOG_STATUS_STARTS: 2;
    readonly SEDGE_LOG_STATUS_LOST: 3;
    readonly SEDGE_LOG_ORDER_RESTART: 1;
    readonly SEDGE_LOG_ORDER_REBUILD: 2;
    readonly SEDGE_PACKET_LONGEST: 65542;
    readonly SEDGE_TC_LONGEST: 1024;
    readonly SEDGE_SEGMENT_LONGEST: 1016;
    readonly SEDGE_TM_LONGEST: 2048;
    readonly SEDGE_LOG_RECORD_OCTETS: 50;
    readonly SEDGE_LOG_STATUS_OCTETS: 27;
    readonly SEDGE_LOG_ORDER_OCTETS: 23;
    readonly SEDGE_LOG_COMMAND_OVERHEAD: 14;
    readonly SEDGE_NODE_OK: 0;
    readonly SEDGE_NODE_NOT_OPEN: 1;
    readonly SEDGE_NODE_CLOSED_MAP: 2;
    readonly SEDGE_NODE_NOT_COMMAND: 3;
    readonly SEDGE_NODE_TOO_LONG: 4;
    readonly SEDGE_NODE_QUEUE_FULL: 5;
    readonly SEDGE_NODE_MEMORY: 6;
    readonly SEDGE_NODE_NOT_KNOWN: 10;
    readonly SEDGE_NODE_ROOM: 252;
    readonly SEDGE_NODE_ABSENT: 253;
    readonly SEDGE_NODE_OUT_OF_RANGE: 254;
    readonly SEDGE_NODE_NONE: 255;
    readonly SEDGE_NO_PARAMETER: 0;
    readonly SEDGE_PARAMETER_SCID: 1;
    readonly SEDGE_PARAMETER_VCID: 2;
    readonly SEDGE_PARAMETER_TM_VCID: 3;
    readonly SEDGE_PARAMETER_WIDTH: 4;
    readonly SEDGE_PARAMETER_WINDOW: 5;
    readonly SEDGE_PARAMETER_LIMIT: 6;
    readonly SEDGE_PARAMETER_TIMER: 7;
    readonly SEDGE_PARAMETER_PART: 8;
    readonly SEDGE_PARAMETER_MAX_PACKET: 9;
    readonly SEDGE_PARAMETER_MAPS: 10;
    readonly SEDGE_PARAMETER_READY_SLOTS: 11;
    readonly SEDGE_PARAMETER_BYPASS_SLOTS: 12;
    readonly SEDGE_PARAMETER_QUEUE_SLOTS: 13;
    readonly SEDGE_PARAMETER_FRAME_LENGTH: 14;
    readonly SEDGE_PARAMETER_BLOCKING: 15;
    readonly SEDGE_HEARD_INVALID: 1;
    readonly SEDGE_HEARD_FOREIGN: 2;
    readonly SEDGE_HEARD_FRAME: 3;
    readonly SEDGE_HEARD_CLCW: 4;
    readonly SEDGE_REPORT_USED: 0;
    readonly SEDGE_REPORT_REFUSED: 1;
    readonly SEDGE_REPORT_OTHER_CHANNEL: 2;
    readonly SEDGE_RECEIVED_INVALID: 1;
    readonly SEDGE_RECEIVED_FOREIGN: 2;
    readonly SEDGE_RECEIVED_AD: 3;
    readonly SEDGE_RECEIVED_BD: 4;
    readonly SEDGE_RECEIVED_BC: 5;
    readonly SEDGE_LEDGER_LAYOUT: 1;
    readonly SEDGE_LEDGER_CHECK: 2;
    readonly SEDGE_LEDGER_FIELD_RANGE: 3;
    readonly SEDGE_LEDGER_TOO_LONG: 4;
    readonly SEDGE_LEDGER_NO_NUMBER: 5;
    readonly SEDGE_LEDGER_NOT_LOST: 6;
    readonly SEDGE_LEDGER_NO_BOOT: 7;
    readonly SEDGE_LEDGER_OWING: 8;
    readonly SEDGE_LEDGER_MEMORY: 9;
    readonly SEDGE_LEDGER_ROOM: 252;
    readonly SEDGE_LEDGER_ABSENT: 253;
    readonly SEDGE_LEDGER_OUT_OF_RANGE: 254;
    readonly SEDGE_COMMANDER_NOTHING: 0;
    readonly SEDGE_COMMANDER_STORE: 1;
    readonly SEDGE_COMMANDER_EXECUTED: 2;
    readonly SEDGE_COMMANDER_UNKNOWN: 3;
    readonly SEDGE_COMMANDER_RESTARTED: 4;
    readonly SEDGE_COMMANDER_RECORD_LOST: 5;
    readonly SEDGE_COMMANDER_FOREIGN: 6;
    readonly SEDGE_COMMANDER_ALERT: 7;
    readonly SEDGE_COMMANDER_TELEMETRY: 8;
    readonly SEDGE_COMMANDER_SEND: 9;
    readonly SEDGE_PROGRESS_WAITS: 0;
    readonly SEDGE_PROGRESS_SENT: 1;
    readonly SEDGE_PROGRESS_ON_BOARD: 2;
    readonly SEDGE_SIM_MEMORY: 6;
    readonly SEDGE_SIM_NOTHING_IN_TRANSIT: 7;
    readonly SEDGE_SIM_NOT_DETECTABLE: 8;
    readonly SEDGE_REPLY_DONE: 0;
    readonly SEDGE_REPLY_NOTHING: 1;
    readonly SEDGE_REPLY_LOST: 2;
    readonly SEDGE_REPLY_REFUSED: 3;
    readonly SEDGE_REPLY_ALERT: 4;
    readonly SEDGE_REPLY_SENT: 5;
    readonly SEDGE_REPLY_REPORTED: 6;
    readonly SEDGE_REPLY_UP: 7;
    readonly SEDGE_REPLY_DOWN: 8;
    readonly SEDGE_REPLY_PACKET: 9;
    readonly SEDGE_REPLY_DOWN_CLCW: 10;
    readonly SEDGE_REPLY_RESUMED: 11;
    readonly SEDGE_BY_NODE: 1;
    readonly SEDGE_BY_SENDER: 2;
    readonly SEDGE_BY_TELEMETRY: 3;
    readonly SEDGE_EVENT_SUBMIT: 1;
    readonly SEDGE_EVENT_BYPASS: 2;
    readonly SEDGE_EVENT_DIRECTIVE: 3;
    readonly SEDGE_EVENT_SEND: 4;
    readonly SEDGE_EVENT_UP_DELIVER: 5;
    readonly SEDGE_EVENT_UP_LOSE: 6;
    readonly SEDGE_EVENT_UP_DAMAGE: 7;
    readonly SEDGE_EVENT_REPORT: 8;
    readonly SEDGE_EVENT_DOWN_DELIVER: 9;
    readonly SEDGE_EVENT_DOWN_LOSE: 10;
    readonly SEDGE_EVENT_DOWN_DAMAGE: 11;
    readonly SEDGE_EVENT_TICK: 12;
    readonly SEDGE_EVENT_TAKE: 13;
    readonly SEDGE_EVENT_TAKE_BYPASS: 14;
    readonly SEDGE_EVENT_TELEMETRY: 15;
    readonly SEDGE_EVENT_DOWN_CLCW: 16;
    readonly SEDGE_EVENT_RESUME: 17;
    readonly SEDGE_BEGUN_NOT: 0;
    readonly SEDGE_BEGUN_WITHOUT_CHECK: 1;
    readonly SEDGE_BEGUN_WITH_CHECK: 2;
    readonly SEDGE_BEGUN_UNLOCK: 3;
    readonly SEDGE_BEGUN_SET_VR: 4;
    readonly SEDGE_SUBMITTED: 1;
    readonly SEDGE_DELIVERED: 2;
    readonly SEDGE_SENT: 3;
    readonly SEDGE_RECEIVED: 4;
};
