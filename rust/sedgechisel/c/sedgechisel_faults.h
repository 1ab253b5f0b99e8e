/* The text of each fault that the calls of sedgechisel.h and sedgechisel_nodes.h return, for a program to show: its
 * number, its name, and what it means. The packages for Python, Rust and JavaScript have the same texts.
 *
 *     uint8_t fault = sedge_tc_decode(octets, count, true, &frame, &data);
 *     if (fault != SEDGE_OK) puts(sedge_tc_fault_text(fault));
 *
 * prints, for example, "6 Check: the last two octets are not the check of those before them (4.1.4)".
 *
 * There is a call for each enumeration of faults, with its name, and one for the parameter that sedge_config_fault
 * returns. A call of sedgechisel.h may also return 253 to 255, the numbers of sedge_status; sedge_status_text and the
 * calls for that header's faults return their texts. A call of sedgechisel_nodes.h may also return 252 to 255, numbers
 * of sedge_node_status; sedge_link_fault_text returns their texts. For any other number, the text is "?".
 *
 * The texts are constants, and a program contains only those of the calls that it makes. tools/bindings generates them
 * from the notes in the two headers. For C99 and later, and for C++. */
#ifndef SEDGECHISEL_FAULTS_H
#define SEDGECHISEL_FAULTS_H

#include <stdint.h>

/* The text of a sedge_status, which all kinds of calls share. */
static inline const char *sedge_status_text(uint8_t number) {
    switch (number) {
    case 253: return "253 Absent: there is no such segment or action, no earlier packet of the APID, or a CLCW states "
                     "nothing about the units";
    case 254: return "254 WrongCount: not the number of octets that the call needs";
    case 255: return "255 Damaged: a struct has a value that no sender, receiver or MAP can have, or one outside its "
                     "enumeration";
    default: return "?";
    }
}

/* Why a CLCW is refused: the text of a sedge_clcw_fault. */
static inline const char *sedge_clcw_fault_text(uint8_t number) {
    switch (number) {
    case 1: return "1 Kind: the control word type is not 0 (4.2.1.2)";
    case 2: return "2 Version: the version number is not 00 (4.2.1.3)";
    case 3: return "3 Cop: the COP in effect is not 01, COP-1 (4.2.1.5)";
    case 4: return "4 Spare: a spare bit is not 0";
    case 5: return "5 Range: a field is too large for its bits, or a flag bit has no name";
    default: return sedge_status_text(number);
    }
}

/* Why the receiver or the sender refuses a call: the text of a sedge_cop_fault. */
static inline const char *sedge_cop_fault_text(uint8_t number) {
    switch (number) {
    case 1: return "1 Width: the window width is not an even number from 2 to 254";
    case 2: return "2 Window: the sender's window K is not from 1 to half the width";
    case 3: return "3 Limit: the transmission limit is 0";
    case 4: return "4 Timer: the timer's value is 0";
    case 6: return "6 NotOpen: the sender is in its state S6";
    case 7: return "7 Busy: a unit is already waiting";
    case 8: return "8 WrongState: the directive is not allowed in the sender's state";
    default: return sedge_status_text(number);
    }
}

/* Why a telecommand frame is refused: the text of a sedge_tc_fault. */
static inline const char *sedge_tc_fault_text(uint8_t number) {
    switch (number) {
    case 1: return "1 Short: fewer than the 5 octets of the header";
    case 2: return "2 Version: the version number is not 00 (4.1.2.2)";
    case 3: return "3 ReservedType: the control command flag without the bypass flag (4.1.2.3)";
    case 4: return "4 Spare: the spare bits are not 00 (4.1.2.4)";
    case 5: return "5 Length: the declared total is not the number of octets, or is too small (4.1.2.7)";
    case 6: return "6 Check: the last two octets are not the check of those before them (4.1.4)";
    case 7: return "7 BypassNumber: a frame with the bypass flag has a number other than 0 (4.1.2.8)";
    case 8: return "8 EmptyData: no octet in the data field, or only a segment header";
    case 9: return "9 Command: the data of a control frame are neither Unlock nor Set V(R) (4.1.3.3)";
    case 10: return "10 Room: there is too little room for the frame";
    case 11: return "11 FieldRange: a field out of range, no data, or more than 1,024 octets";
    default: return sedge_status_text(number);
    }
}

/* Why a space packet is refused: the text of a sedge_packet_fault. */
static inline const char *sedge_packet_fault_text(uint8_t number) {
    switch (number) {
    case 1: return "1 Truncated: fewer than the 6 octets of the header, or fewer than it declares";
    case 2: return "2 Version: the version number is not 000 (4.1.3.2)";
    case 3: return "3 IdleWithSecondary: an idle packet with a secondary header (4.1.3.3.3)";
    case 4: return "4 Room: there is too little room for the packet";
    case 5: return "5 FieldRange: a field out of range, no data or more than 65,536 octets of them, or an idle packet "
                   "with a secondary header";
    default: return sedge_status_text(number);
    }
}

/* Why a telemetry frame, or a packet for one, is refused: the text of a sedge_tm_fault. */
static inline const char *sedge_tm_fault_text(uint8_t number) {
    switch (number) {
    case 1: return "1 Length: not as many octets as length, or a length outside 16 to 2,048";
    case 2: return "2 Version: the version number is not 00 (4.1.2.2)";
    case 3: return "3 Check: the last two octets are not the check of those before them (4.1.6)";
    case 4: return "4 Status: a flag of the data field status is 1, or its identifier is not 11 (4.1.2.7)";
    case 5: return "5 Pointer: a first header pointer at or after the data field's end (4.1.2.7.6)";
    case 6: return "6 NoOcf: the frame declares no operational control field (4.1.2.4)";
    case 7: return "7 Memory: out of memory for what would be kept";
    case 8: return "8 NotAPacket: not exactly one packet, or an idle packet";
    case 9: return "9 Room: there is too little room for the frame";
    case 10: return "10 FieldRange: a field out of range, a pointer after the data, not 4 to 2,036 octets of data, or "
                    "a length outside 16 to 2,048";
    default: return sedge_status_text(number);
    }
}

/* Why octets are not cut into segments, or a MAP refuses a call: the text of a sedge_map_fault. */
static inline const char *sedge_map_fault_text(uint8_t number) {
    switch (number) {
    case 1: return "1 NotAPacket: not exactly one packet, or with blocking not one or more whole packets";
    case 2: return "2 TooLong: a packet has more octets than max_packet";
    default: return sedge_status_text(number);
    }
}

/* Why octets of a board's commands are refused, or the board drops a command or an order: the text of a
 * sedge_log_fault. */
static inline const char *sedge_log_fault_text(uint8_t number) {
    switch (number) {
    case 1: return "1 Layout: not exactly one packet of this layout, or not the layout's number of octets";
    case 2: return "2 Check: the check does not hold, or a field has a value that the layout does not allow";
    case 3: return "3 Starting: the board has started, and a copy of its record is being repaired";
    case 4: return "4 Busy: the record is being written, a command is being executed, or a restart is due";
    case 5: return "5 Lost: the board has lost its record";
    case 6: return "6 Behind: a command with this number was executed or passed over";
    case 7: return "7 Ahead: the command's number is above the next one";
    case 8: return "8 OtherBoot: the order is for a different boot count";
    case 9: return "9 NotLost: the order brings a record, but the board still has its own";
    case 10: return "10 OtherMark: the order brings a record for another loss";
    case 11: return "11 FieldRange: a field is out of range, or the data are too long";
    case 12: return "12 Room: the output is too short for the packet";
    default: return sedge_status_text(number);
    }
}

/* Why a node refuses a call: the text of a sedge_node_status. */
static inline const char *sedge_link_fault_text(uint8_t number) {
    switch (number) {
    case 1: return "1 NotOpen: the sender is in its state Initial (S6)";
    case 2: return "2 ClosedMap: the MAP is not open";
    case 3: return "3 NotCommand: the octets are not command packets, or are more of them than one call takes";
    case 4: return "4 TooLong: a packet has more octets than it may have";
    case 5: return "5 QueueFull: the queue has too few free slots for the units";
    case 6: return "6 Memory: out of memory";
    case 10: return "10 NotKnown: nothing is known of how far the session has come";
    case 252: return "252 Room: the output is too short; nothing was taken";
    case 253: return "253 Absent: nothing is at this index, there is no CLCW in the octets, or a CLCW states nothing "
                     "about the segments";
    case 254: return "254 OutOfRange: a parameter is out of range";
    case 255: return "255 None: the handle holds no node, or there is no such directive or event";
    default: return "?";
    }
}

/* Why an event does not happen on a simulated link: the text of a sedge_sim_fault. */
static inline const char *sedge_sim_fault_text(uint8_t number) {
    switch (number) {
    case 6: return "6 Memory: out of memory";
    case 7: return "7 NothingInTransit: no frame is in transit in this direction";
    case 8: return "8 NotDetectable: the receiver's decoder would accept the octets of the damaged frame";
    default: return number < 252 ? "?" : sedge_link_fault_text(number);
    }
}

/* Why a commander refuses a call: the text of a sedge_ledger_fault. */
static inline const char *sedge_ledger_fault_text(uint8_t number) {
    switch (number) {
    case 1: return "1 Layout: not the number of octets of a status";
    case 2: return "2 Check: the check of a status does not hold, or a field has a value that the layout does not "
                   "allow";
    case 3: return "3 FieldRange: a MAP is not open, an APID or a sequence count is out of range, or the octets are "
                   "too many for a packet";
    case 4: return "4 TooLong: the packet would be longer than the configured maximum";
    case 5: return "5 NoNumber: all numbers have been given";
    case 6: return "6 NotLost: the board has not lost its record";
    case 7: return "7 NoBoot: no boot count is left for an order that brings a record";
    case 8: return "8 Owing: something must be stored or reported first";
    case 9: return "9 Memory: out of memory";
    case 252: return "252 Room: the output is too short; nothing was taken";
    case 253: return "253 Absent: this is not the next action or the number of octets that are due, the command has a "
                     "fate or was not given, or the octets are not a CLCW";
    case 254: return "254 OutOfRange: a parameter or a setting is out of range";
    default: return number < 252 ? "?" : sedge_link_fault_text(number);
    }
}

/* Which parameter is out of range, and its range: the text of a sedge_parameter. */
static inline const char *sedge_parameter_text(uint8_t number) {
    switch (number) {
    case 1: return "1 scid: its range is 0 to 1,023";
    case 2: return "2 vcid: its range is 0 to 63";
    case 3: return "3 tm_vcid: its range is 0 to 7";
    case 4: return "4 width: its range is even, 2 to 254";
    case 5: return "5 window: its range is 1 to width/2";
    case 6: return "6 limit: its range is 1 to 255";
    case 7: return "7 timer: its range is 1 to 65,535";
    case 8: return "8 part: its range is 1 to 1,016";
    case 9: return "9 max_packet: its range is 7 to 65,542";
    case 10: return "10 maps: its range is any 64 bits";
    case 11: return "11 ready_slots: its range is 1 to 64";
    case 12: return "12 bypass_slots: its range is 1 to 64";
    case 13: return "13 queue_slots: its range is 1 to 65,535";
    case 14: return "14 frame_length: its range is 16 to 2,048";
    case 15: return "15 blocking: its range is 0 to 1";
    default: return "?";
    }
}

#endif
