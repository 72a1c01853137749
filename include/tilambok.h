/*
 * tilambok.h - frames, the message sender, RPC payloads and the link of the SmartDeviceLink protocol, for C99 and C++.
 *
 * The functions are written in Rattle (crates/tilambok) and proved: for all inputs the status, the value and every lent
 * byte are what crates/tilambok/specs says, no byte outside the lent ones is read or written, and every call ends. This
 * file says the same in words; it is written by hand and is no part of the proof. Link with libtilambok.a
 * (`rt lib` in crates/tilambok).
 *
 * What the caller owes, since no check can see it:
 *   - A pointer and the length behind it describe bytes that the caller may read (a `const` pointer) or write (the others)
 *     for the whole call. A length is at most SIZE_MAX / 2, as that of any object is.
 *   - `value` and `consumed` point to a uint32_t that the caller may write, `service` to a byte.
 *   - No pointer is null, not even where its length is 0: then any pointer that is not null will do.
 *   - What is lent to one call does not overlap, `value`, `consumed` and `service` included, and no other thread writes to
 *     any of it, or reads what the call may write, before the call returns.
 * Nothing else: any bytes, any numbers and any lengths are answered. The functions keep no state of their own, allocate
 * nothing and may be called from several threads at once: each call has what is lent to it, and no other. So two threads
 * that serve a link each need a state and a pool each; one state and its pool serve one call at a time.
 */
#ifndef TILAMBOK_H
#define TILAMBOK_H

#include <stddef.h>
#include <stdint.h>

#ifdef __cplusplus
extern "C" {
#endif

/*
 * Every function returns a status. What else there is to tell, how many bytes for instance, goes to `*value`.
 *
 *   status               *value
 *   TILAMBOK_DONE        what the function says below
 *   TILAMBOK_SHORT       tilambok_read_frame and tilambok_link_call only: how many bytes are needed in all, those that are
 *                        there included
 *   129 to 132           tilambok_link_call only, see there
 *   any other            left as it was: the call was refused, and the status is one of the numbers below
 *
 * A status is at most 132. Cut to an `int` or to one byte it is the same number, so it is 0 only where the call is done.
 * A refused call and TILAMBOK_SHORT change no lent byte; only 24 and 25 of the link drop the one message that they name.
 */
#define TILAMBOK_DONE 0
#define TILAMBOK_SHORT 128
#define TILAMBOK_ACK 129
#define TILAMBOK_NAK 130
#define TILAMBOK_HEARTBEAT_ACK 131
#define TILAMBOK_DELIVERED 132

/*
 * Why a call was refused. Where several apply, the first in the function's own order is given.
 *
 *   no  given exactly when
 *    1  the version is 0 or above 5
 *    2  the frame type is above 3
 *    3  the service type is none of 00, 07, 0A, 0B, 0F (hexadecimal)
 *    4  a control frame's info is none of 00 to 09, FD, FE, FF (hexadecimal)
 *    5  the flag is set in version 1 or on a First Frame
 *    6  the data size is not 8 in a First Frame, is 0 in a consecutive frame, or is above the version's largest;
 *       tilambok_write_frame: also where it is not the payload's length
 *   10  settings out of range: the sender's chunk is 0 or above the version's largest; a payload's form is none of the three;
 *       link: no state (its length or its first byte), the pool not 65,536 bytes, version, mtu or offer out of range, or a
 *       state rule broken
 *   11  the buffer that is to be written, `fields` or `out`, is too small for the bytes due; link: also an `out` under 128
 *       bytes
 *   12  link: session not open (0 never is; opening excepted)
 *   13  link: encryption flag set
 *   14  link: version not the settled one; unsettled: above min(M, 4)
 *   15  link: settled at 5, data size above mtu minus 12
 *   16  link: type 1 to 3 on a service not running; 00 always runs, 0F from frame version 2
 *   17  link: control info other than 00, 01, 04, FF; or 00, FF not on service 00 or not settled at 3 or more
 *   18  link: total 0 or above 65,536, count 0 or above total; sender: the message has more bytes than
 *       TILAMBOK_LARGEST_TOTAL, and more than one chunk
 *   19  link: message already open
 *   20  link: held + need above the session's cap
 *   21  link: sum over sessions of the larger of held and guarantee above 256
 *   22  link: no message open
 *   23  link: other message id
 *   24  link: frame number wrong; the message is dropped
 *   25  link: sizes wrong; the message is dropped
 *   26  the sender's k is past the last frame
 *   40  reader: the payload has under 12 bytes
 *   41  the type is above 2; in a query: is none of 00, 10, 20, FF (hexadecimal)
 *   42  a query's id is none of 1, 2, FFFFFF (hexadecimal); writer: also a function id of more than 28 bits
 *   43  reader: the JSON size is past the payload's end; writer: it is not json_length
 *   44  reader: bytes follow the JSON in the RPC form; writer: bulk_length is not 0 in the RPC form
 */
#define TILAMBOK_BAD_VERSION 1
#define TILAMBOK_BAD_FRAME_TYPE 2
#define TILAMBOK_BAD_SERVICE 3
#define TILAMBOK_BAD_CONTROL_INFO 4
#define TILAMBOK_BAD_FLAG 5
#define TILAMBOK_BAD_SIZE 6
#define TILAMBOK_BAD_SETTINGS 10
#define TILAMBOK_TOO_SMALL 11
#define TILAMBOK_NOT_OPEN 12
#define TILAMBOK_ENCRYPTED 13
#define TILAMBOK_OTHER_VERSION 14
#define TILAMBOK_ABOVE_MTU 15
#define TILAMBOK_NOT_RUNNING 16
#define TILAMBOK_NOT_SERVED 17
#define TILAMBOK_BAD_TOTALS 18
#define TILAMBOK_ALREADY_OPEN 19
#define TILAMBOK_ABOVE_CAP 20
#define TILAMBOK_NO_ROOM 21
#define TILAMBOK_NO_MESSAGE 22
#define TILAMBOK_OTHER_MESSAGE 23
#define TILAMBOK_BAD_FRAME_NUMBER 24
#define TILAMBOK_BAD_FRAME_SIZE 25
#define TILAMBOK_NO_SUCH_FRAME 26
#define TILAMBOK_RPC_TOO_SHORT 40
#define TILAMBOK_RPC_BAD_TYPE 41
#define TILAMBOK_RPC_BAD_ID 42
#define TILAMBOK_RPC_BAD_JSON_SIZE 43
#define TILAMBOK_RPC_BULK 44

/* ---- frames ---- */

/* Sizes in bytes. A header has the first size in version 1 and the second in versions 2 to 5. */
#define TILAMBOK_HEADER_1 8
#define TILAMBOK_HEADER 12
#define TILAMBOK_LARGEST_DATA_1 1488   /* the largest data size in versions 1 and 2 */
#define TILAMBOK_LARGEST_DATA 131072   /* and in versions 3 to 5 */
#define TILAMBOK_LARGEST_FRAME 131084  /* header and data: an `out` of so many bytes is never too small for a frame */
#define TILAMBOK_LARGEST_TOTAL 65536   /* the largest message in several frames */

/* Frame types. */
#define TILAMBOK_CONTROL 0
#define TILAMBOK_SINGLE 1
#define TILAMBOK_FIRST 2
#define TILAMBOK_CONSECUTIVE 3

/*
 * The fields of a frame that was read: TILAMBOK_FIELDS bytes, each of these at its place. The data size and the message id
 * are 4 bytes each, most significant first: see tilambok_field_u32.
 */
#define TILAMBOK_FIELDS 16
#define TILAMBOK_AT_VERSION 0        /* 1 to 5 */
#define TILAMBOK_AT_FLAG 1           /* the encryption flag: 0 clear, 1 set */
#define TILAMBOK_AT_FRAME_TYPE 2     /* 0 to 3 */
#define TILAMBOK_AT_SERVICE_TYPE 3
#define TILAMBOK_AT_FRAME_INFO 4
#define TILAMBOK_AT_SESSION_ID 5
#define TILAMBOK_AT_PAYLOAD_START 6  /* how many bytes the header takes: 8 in version 1, else 12 */
#define TILAMBOK_AT_ZERO 7           /* always 0 */
#define TILAMBOK_AT_DATA_SIZE 8      /* bytes of payload */
#define TILAMBOK_AT_MESSAGE_ID 12    /* 0 in version 1, whose header has none */

/* The number whose 4 bytes begin at `field`, as fields + TILAMBOK_AT_DATA_SIZE. */
static inline uint32_t tilambok_field_u32(const uint8_t *field) {
    return (uint32_t)field[0] << 24 | (uint32_t)field[1] << 16 | (uint32_t)field[2] << 8 | (uint32_t)field[3];
}

/*
 * Reads the frame at the front of `bytes`. What follows it is not looked at.
 *
 *   TILAMBOK_SHORT    fewer than 8 bytes are there: the value is 8; or the header, whose first 8 bytes have no fault,
 *                     and its payload are not all there: the value is header size plus data size.
 *   1 to 6            the first 8 bytes have that fault, whether or not more are there; the lowest number is given.
 *   11                a whole frame is there, and fields_length is below TILAMBOK_FIELDS.
 *   TILAMBOK_DONE     the first TILAMBOK_FIELDS bytes of `fields` say what the frame is. Its payload is `bytes` from
 *                     fields[TILAMBOK_AT_PAYLOAD_START] on, as long as the data size says; the value is where it ends:
 *                     the bytes consumed.
 *
 * `bytes` is only read. `fields` past its first TILAMBOK_FIELDS bytes is left as it is.
 */
uint32_t tilambok_read_frame(const uint8_t *bytes, size_t bytes_length, uint8_t *fields, size_t fields_length,
                             uint32_t *value);

/*
 * Writes a frame's header alone to the front of `out`: 8 bytes in version 1, else 12. `flag` is clear where it is 0 and
 * set where it is anything else. In version 1 `message_id` is not looked at: the header has none.
 *
 *   1 to 6            the header has that fault; the lowest number is given.
 *   11                out_length is below the header's size.
 *   TILAMBOK_DONE     the value is the header's size.
 *
 * `out` past the bytes written is left as it is.
 */
uint32_t tilambok_write_header(uint8_t version, uint8_t flag, uint8_t frame_type, uint8_t service_type, uint8_t frame_info,
                               uint8_t session_id, uint32_t data_size, uint32_t message_id, uint8_t *out,
                               size_t out_length, uint32_t *value);

/*
 * Writes a frame, header and payload, to the front of `out`. The header's numbers are as in tilambok_write_header.
 *
 *   1 to 6            the header has that fault; 6 also where data_size is not payload_length.
 *   11                out_length is below header size plus payload_length.
 *   TILAMBOK_DONE     the value is header size plus payload_length.
 *
 * `payload` is only read. `out` past the bytes written is left as it is.
 */
uint32_t tilambok_write_frame(uint8_t version, uint8_t flag, uint8_t frame_type, uint8_t service_type, uint8_t frame_info,
                              uint8_t session_id, uint32_t data_size, uint32_t message_id, const uint8_t *payload,
                              size_t payload_length, uint8_t *out, size_t out_length, uint32_t *value);

/* ---- messages: what a phone sends ---- */

/*
 * Writes the k-th frame of a message, counted from 0, to the front of `out`. `chunk` is the largest payload of one frame.
 * A message that fits one chunk is a single frame, at k = 0. Any other is a First Frame at 0, whose payload is two numbers
 * of 4 bytes, most significant first: the message's bytes, and how many consecutive frames follow, length over chunk
 * rounded up. Frames 1 to that count carry the chunks; the k-th has frame info 1 + (k - 1) % 255, so that the number after
 * 255 is 1 again, and the last one has 0. No flag is set. In version 1 `message_id` is not looked at.
 *
 *   1, 3, 10, 18, 26  in this order: the version, the service type, the chunk, the message's length, k.
 *   11                out_length is below the frame's bytes.
 *   TILAMBOK_DONE     the value is how many bytes the frame has.
 *
 * So a whole message goes out by asking for k = 0, 1, 2 .. until the status is not TILAMBOK_DONE: all is sent where it is
 * TILAMBOK_NO_SUCH_FRAME. `message` is only read. `out` past the bytes written is left as it is.
 */
uint32_t tilambok_send(uint8_t version, uint8_t service_type, uint8_t session_id, uint32_t message_id, uint32_t chunk,
                       uint32_t k, const uint8_t *message, size_t message_length, uint8_t *out, size_t out_length,
                       uint32_t *value);

/* ---- RPC payloads: what is inside joined messages ---- */

/* The three forms of a payload. */
#define TILAMBOK_RPC 0    /* header and JSON, on service 07; at version 1 JSON alone */
#define TILAMBOK_BULK 1   /* header, JSON and bulk data, on service 0F */
#define TILAMBOK_QUERY 2  /* the security query: header, JSON and binary data, on service 00 */

/* The bytes of a payload's header. At version 1 the RPC form, and it alone, has none. */
#define TILAMBOK_RPC_HEADER 12

/*
 * The fields of a payload that was read: TILAMBOK_RPC_FIELDS bytes, each of these at its place. The last three are 4 bytes
 * each, most significant first: see tilambok_field_u32. Without a header each of the bytes is 0.
 */
#define TILAMBOK_RPC_FIELDS 16
#define TILAMBOK_RPC_AT_HEADER 0     /* 1 with a header, else 0: the RPC form at version 1 */
#define TILAMBOK_RPC_AT_TYPE 1       /* 0 to 2; in a query 00, 10, 20 or FF (hexadecimal) */
#define TILAMBOK_RPC_AT_JSON_START 2 /* where the JSON begins: 12 behind a header, else 0 */
#define TILAMBOK_RPC_AT_ZERO 3       /* always 0 */
#define TILAMBOK_RPC_AT_ID 4         /* function id; in a query its id */
#define TILAMBOK_RPC_AT_NUMBER 8     /* correlation id; in a query the sequence number */
#define TILAMBOK_RPC_AT_JSON_SIZE 12 /* bytes of JSON; without a header the JSON is the whole payload */

/*
 * The form of the messages that come on a service.
 *
 *   10                none; audio and video carry no such payload, and other numbers are no service.
 *   TILAMBOK_DONE     the value is the form.
 */
uint32_t tilambok_rpc_form(uint8_t service_type, uint32_t *value);

/*
 * Reads a payload: the bytes of a whole message, with its session's version. JSON is not looked into.
 *
 *   10, 1, 40 to 44   in this order. In the RPC form at version 1 40 to 44 are not given.
 *   11                the payload has no fault, and fields_length is below TILAMBOK_RPC_FIELDS.
 *   TILAMBOK_DONE     the first TILAMBOK_RPC_FIELDS bytes of `fields` say what the payload is, and the value is where the
 *                     JSON begins. With a header the JSON is as long as the JSON size says, and what follows it, to the
 *                     payload's end, is bulk data (in a query, binary data). Without one all of the payload is JSON.
 *
 * `payload` is only read. `fields` past its first TILAMBOK_RPC_FIELDS bytes is left as it is.
 */
uint32_t tilambok_read_rpc(uint8_t form, uint8_t version, const uint8_t *payload, size_t payload_length, uint8_t *fields,
                           size_t fields_length, uint32_t *value);

/*
 * Writes a payload, header, JSON and bulk data, to the front of `out`. `id` is the function id, in a query its id; `number`
 * the correlation id, in a query the sequence number. In the RPC form at version 1 the JSON is written alone, and type, id,
 * number and json_size are not looked at.
 *
 *   10, 1, 41 to 44   in this order. In the RPC form at version 1 41 to 43 are not given.
 *   11                out_length is below what is to be written.
 *   TILAMBOK_DONE     the value is where the JSON begins in `out`, 12 or 0, and that many bytes plus json_length plus
 *                     bulk_length were written. (Their sum may need more than 32 bits.)
 *
 * `json` and `bulk` are only read. `out` past the bytes written is left as it is.
 */
uint32_t tilambok_write_rpc(uint8_t form, uint8_t version, uint8_t type, uint32_t id, uint32_t number, uint32_t json_size,
                            const uint8_t *json, size_t json_length, const uint8_t *bulk, size_t bulk_length, uint8_t *out,
                            size_t out_length, uint32_t *value);

/* ---- the link: up to eight sessions of a phone, and the messages that they send ---- */

#define TILAMBOK_LINK_STATE 2688u  /* bytes of a state, exactly */
#define TILAMBOK_LINK_POOL 65536u  /* bytes of a pool, exactly: 256 blocks of 256 bytes */
#define TILAMBOK_LINK_OUT 128u     /* the least `out`; one of TILAMBOK_LARGEST_DATA bytes is never too small */

/*
 * A link's state is bytes of the caller's, and nothing else: it holds no pointer and no address. It may be copied, moved,
 * saved and compared as bytes, and so may its pool; a copy of both goes on as the original would have. Calls read and write
 * the state only through tilambok_link_call; a caller may read it. Any bytes may be lent as a state: where they are none, or
 * break a state rule, the call is refused with 10. Numbers have their least significant byte first.
 *
 *      at   bytes                                          in a row   bytes
 *       0       1   this layout's number, 1                       0       1   id, 0 in a free row
 *       1       3   the module's version M, m, p                  1       1   settled version, 0 while unsettled
 *       4       4   mtu                                           2    2, 2   guarantee and cap of its opening
 *       8     536   reserved                                      6       5   whether a message is open: 00, 07, 0A, 0B, 0F
 *     544     256   each block's owner                           11    1, 1   whether audio runs, whether video does
 *     800   1,888   eight rows of 236 bytes                      13       4   the message id of its next ACK
 *                                                                17   3 * 4   the hashes of 07, audio and video
 *                                                                29  5 * 20   messages: id, total, count, frames to come,
 *                                                                             bytes missing, 4 bytes each
 *                                                               129     107   reserved
 *
 * A block's owner is 0 where it is free, else 1 + 5 * row + place, the place being that of the service in 00, 07, 0A, 0B, 0F.
 * A flag is set where its byte is any but 0. Hashes and messages say something only where their service runs or their
 * message is open. Reserved bytes are 0 after creation; calls neither read nor write them.
 */

/*
 * Makes `state` a link without sessions, for a module of version major.minor.patch. What stood there does not matter.
 *
 *   10                state_length is not TILAMBOK_LINK_STATE, major is not 1 to 5, or mtu not 1,500 to 131,084.
 *   TILAMBOK_DONE     every byte of `state` is written. The pool's bytes do not matter.
 */
uint32_t tilambok_link_create(uint8_t *state, size_t state_length, uint8_t major, uint8_t minor, uint8_t patch, uint32_t mtu);

/*
 * Answers the frame at the front of `input`; what follows it is not looked at. `guarantee`, `cap` and `hash` are the offer to
 * a session or service that the frame may start: guarantee at most cap, cap at most 256, in blocks. From call to call a link
 * gets its state and pool as the last call left them.
 *
 *   status                     *consumed                *value                          *service
 *   TILAMBOK_DONE              bytes of the frame       0: accepted silently            left
 *   TILAMBOK_ACK, TILAMBOK_NAK, TILAMBOK_HEARTBEAT_ACK
 *                              bytes of the frame       bytes of the reply, to be sent  left
 *   TILAMBOK_DELIVERED         bytes of the frame       bytes of the message            its service type
 *   TILAMBOK_SHORT             left                     bytes needed in all             left
 *   1 to 6, 10 to 25           left                     left                            left
 *
 * A reply or a message stands at the front of `out`; `out` past it is left as it is. A reply has at most TILAMBOK_LINK_OUT
 * bytes, a message at most TILAMBOK_LARGEST_DATA. Refusals are judged in the order 10, Short or 1 to 6, 11 (under 128), 12 to
 * 17, then 18 to 21 or 22 to 25, then 11 for a delivery. `input` is only read.
 */
uint32_t tilambok_link_call(uint8_t *state, size_t state_length, uint8_t *pool, size_t pool_length, const uint8_t *input,
                            size_t input_length, uint8_t *out, size_t out_length, uint16_t guarantee, uint16_t cap,
                            uint32_t hash, uint8_t *service, uint32_t *consumed, uint32_t *value);

#ifdef __cplusplus
}
#endif

#endif
