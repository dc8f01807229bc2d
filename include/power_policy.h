/* The console's power policy and the desk's follower, as C functions on numbers and bytes.
 *
 * State is kept by the caller, as an image of fixed length that the functions read and write; docs/STATE.md has both images byte by byte.
 * A slice is a pointer and a length; at length 0 the pointer is not used. What is lent to one call must not overlap.
 * Every function of the archive returns one 64-bit number: its low byte is an outcome, the other bytes belong to it. A call that is
 * refused changes no byte that it was lent. No function blocks, allocates, or keeps anything between calls, so calls on different
 * images may run at the same time.
 *
 * First come numbers by name, then the functions of the archive, then inline functions: configurations, records, and the parts of a
 * result. For C99 and C++11 and what is later. */
#ifndef POWER_POLICY_H
#define POWER_POLICY_H

#include <stddef.h>
#include <stdint.h>

#ifdef __cplusplus
extern "C" {
#endif

/* The version of this header, of the archive that it goes with and of the Rust crate; the number is 10000 x major + 100 x minor + patch.
 * While the major is 0, a new minor may change a function or an image. */
#define POWER_POLICY_VERSION "0.2.0"
#define POWER_POLICY_VERSION_NUMBER 200

/* Lengths in bytes. */
#define POWER_POLICY_IMAGE 67            /* a service's image */
#define POWER_POLICY_FOLLOWER_IMAGE 241  /* a follower's image */
#define POWER_POLICY_PSU_RECORD 18       /* the record of one port */
#define POWER_POLICY_CHARGER_RECORD 7    /* the record of one charger */
#define POWER_POLICY_BUFFER 64           /* the least buffer for a packet or picture */
#define POWER_POLICY_PAGE 246            /* a follower's page, and the least buffer for it */

/* At most so many can be registered. */
#define POWER_POLICY_PORTS 16
#define POWER_POLICY_CHARGERS 8

/* The milliseconds of a wait, which its order carries. */
#define POWER_POLICY_WAIT_MS 800

/* Outcomes: the low byte of a result. */
enum {
    POWER_POLICY_OUTCOME_REFUSED = 0,
    POWER_POLICY_OUTCOME_ORDER = 1,
    POWER_POLICY_OUTCOME_CLOSED = 2,
    POWER_POLICY_OUTCOME_WRITTEN = 3,
    POWER_POLICY_OUTCOME_DONE = 4,
    POWER_POLICY_OUTCOME_SHOWN = 5,
    POWER_POLICY_OUTCOME_CONSUMER = 6,
    POWER_POLICY_OUTCOME_TRACKED = 7
};

/* Orders to a device: byte 1 of an order. */
enum {
    POWER_POLICY_ORDER_DISCONNECT = 0,
    POWER_POLICY_ORDER_CONNECT_CONSUMER = 1,
    POWER_POLICY_ORDER_CONNECT_PROVIDER = 2,
    POWER_POLICY_ORDER_IS_READY = 3,
    POWER_POLICY_ORDER_INIT_CHARGER = 4,
    POWER_POLICY_ORDER_ATTACH = 5,
    POWER_POLICY_ORDER_DETACH = 6,
    POWER_POLICY_ORDER_WAIT = 7
};

/* Kinds of events. Detail: a reason for DISCONNECTED, the PSU as the charger sees it for CHARGER; else it is not looked at. */
enum {
    POWER_POLICY_EVENT_ATTACHED = 0,
    POWER_POLICY_EVENT_UPDATED_CONSUMER_CAPABILITY = 1,
    POWER_POLICY_EVENT_REQUESTED_PROVIDER_CAPABILITY = 2,
    POWER_POLICY_EVENT_DISCONNECTED = 3,
    POWER_POLICY_EVENT_DETACHED = 4,
    POWER_POLICY_EVENT_CHARGER = 5
};

/* Reasons of a disconnect. */
enum {
    POWER_POLICY_REASON_NONE = 0,
    POWER_POLICY_REASON_DETACHED = 1,
    POWER_POLICY_REASON_SWITCHING = 2,
    POWER_POLICY_REASON_AUTO_RENEGOTIATION = 3,
    POWER_POLICY_REASON_MANUAL_RENEGOTIATION = 4,
    POWER_POLICY_REASON_ROLE_SWAP = 5,
    POWER_POLICY_REASON_RESET = 6
};

/* The PSU as a charger sees it. */
enum {
    POWER_POLICY_CHARGER_PSU_ATTACHED = 0,
    POWER_POLICY_CHARGER_PSU_DETACHED = 1
};

/* Answers to an order, and of a close. A wait is answered by 0 alone, a charger's order by 0 or 9. */
enum {
    POWER_POLICY_ANSWER_DONE = 0,
    POWER_POLICY_ANSWER_INVALID_DEVICE = 1,
    POWER_POLICY_ANSWER_CANNOT_PROVIDE = 2,
    POWER_POLICY_ANSWER_CANNOT_CONSUME = 3,
    POWER_POLICY_ANSWER_INVALID_STATE = 4,
    POWER_POLICY_ANSWER_INVALID_RESPONSE = 5,
    POWER_POLICY_ANSWER_BUSY = 6,
    POWER_POLICY_ANSWER_TIMEOUT = 7,
    POWER_POLICY_ANSWER_BUS = 8,
    POWER_POLICY_ANSWER_CHARGER = 9,
    POWER_POLICY_ANSWER_FAILED = 10
};

/* States of a PSU: byte 0 of its record. The sets of expected states have bit s for state s. */
enum {
    POWER_POLICY_PSU_DETACHED = 0,
    POWER_POLICY_PSU_IDLE = 1,
    POWER_POLICY_PSU_CONNECTED_PROVIDER = 2,
    POWER_POLICY_PSU_CONNECTED_CONSUMER = 3
};

/* States of a charger: byte 0 of its record. */
enum {
    POWER_POLICY_CHARGER_UNPOWERED = 0,
    POWER_POLICY_CHARGER_INIT = 1,
    POWER_POLICY_CHARGER_PSU_IS_ATTACHED = 2,
    POWER_POLICY_CHARGER_PSU_IS_DETACHED = 3
};

/* Flags of a capability: bit 0 unconstrained power (0 for a provider), the PSU type in bits 1 to 3. */
#define POWER_POLICY_FLAG_UNCONSTRAINED 1
enum {
    POWER_POLICY_TYPE_NONE = 0 << 1,
    POWER_POLICY_TYPE_C = 1 << 1,
    POWER_POLICY_TYPE_DC_JACK = 2 << 1,
    POWER_POLICY_TYPE_CUSTOM0 = 3 << 1,
    POWER_POLICY_TYPE_CUSTOM1 = 4 << 1,
    POWER_POLICY_TYPE_CUSTOM2 = 5 << 1,
    POWER_POLICY_TYPE_CUSTOM3 = 6 << 1
};

/* Refusals: byte 1 of a refused result; power_policy_refusal_text has them in words. Of 20 to 29 the lowest that applies is given, of
 * 30 to 33 the one met first from the left; 34 is looked at after them. */
enum {
    POWER_POLICY_REFUSED_CONFIGURATION = 20, /**< over 16 ports or 8 chargers, a configuration figure over its type, a presence above 1 */
    POWER_POLICY_REFUSED_IMAGE = 21,         /**< bytes that are no state's image */
    POWER_POLICY_REFUSED_RECORDS = 22,       /**< records of wrong length or with a field out of range */
    POWER_POLICY_REFUSED_DEVICE = 23,        /**< a port or charger that is not registered */
    POWER_POLICY_REFUSED_KIND = 24,          /**< an unknown kind, reason, PSU state or answer, or one that the order cannot have */
    POWER_POLICY_REFUSED_OPEN = 25,          /**< an event is open */
    POWER_POLICY_REFUSED_NO_ORDER = 26,      /**< no order is open */
    POWER_POLICY_REFUSED_NO_EVENT = 27,      /**< a packet before event 1 */
    POWER_POLICY_REFUSED_LAST_NUMBER = 28,   /**< a PSU event after number 4,294,967,295 */
    POWER_POLICY_REFUSED_BUFFER = 29,        /**< a buffer under 64 bytes */
    POWER_POLICY_REFUSED_CUT_SHORT = 30,     /**< a packet that is cut short or empty */
    POWER_POLICY_REFUSED_NUMBER = 31,        /**< a number that is not in its shortest form or over its limit */
    POWER_POLICY_REFUSED_FIELD = 32,         /**< a kind or field that is not as laid out */
    POWER_POLICY_REFUSED_LEFT_OVER = 33,     /**< bytes after the packet's end */
    POWER_POLICY_REFUSED_PAGE = 34           /**< a buffer under 246 bytes for a page */
};

/* States of a follower: byte 1 of a shown result. */
enum {
    POWER_POLICY_STATE_LOST = 0,
    POWER_POLICY_STATE_LEVEL = 1,
    POWER_POLICY_STATE_WAITING = 2
};

/** Writes a fresh service into an image of any content; power_policy_start_with takes the figures by name. Figures are mW, mV and mA.
 * minimum_present is 0 or 1, and above 1 refused with 20; at 0, minimum_mw is not looked at. Done, or refused: 20, 21. */
uint64_t power_policy_start(uint8_t *image, size_t image_len, uint32_t ports, uint32_t chargers, uint64_t threshold_mw,
                            uint64_t unlimited_mv, uint64_t unlimited_ma, uint64_t limited_mv, uint64_t limited_ma,
                            uint64_t minimum_present, uint64_t minimum_mw);

/** Opens an event of a port (kind 0 to 4) or a charger (5), with the present records of all ports and all chargers. An order that
 * waits for its answer, or closed. A PSU event that closes takes the next number; a charger's closes at once and changes nothing.
 * Refused: 21 to 25, 28. */
uint64_t power_policy_open(uint8_t *image, size_t image_len, const uint8_t *psus, size_t psus_len, const uint8_t *chargers,
                           size_t chargers_len, uint32_t kind, uint32_t device, uint32_t detail);

/** Brings the answer to the last order and the present records. The next order, or closed. An event closes after at most
 * 3 + 4 x chargers orders. Refused: 21, 22, 24 (the order stays open), 26. */
uint64_t power_policy_answer(uint8_t *image, size_t image_len, const uint8_t *psus, size_t psus_len, const uint8_t *chargers,
                             size_t chargers_len, uint32_t answer);

/** Where the event stands: the order that waits for its answer, or the close of the last PSU event (done, without orders, before
 * event 1). Refused: 21. */
uint64_t power_policy_order(const uint8_t *image, size_t image_len);

/** Writes the packet of the event closed last; bytes of the buffer past it stay. Written. Refused: 21, 25, 27, 29. */
uint64_t power_policy_write_packet(const uint8_t *image, size_t image_len, uint8_t *buffer, size_t buffer_len);

/** Writes the full picture of what is held; bytes of the buffer past it stay. Written. Refused: 21, 25, 29. */
uint64_t power_policy_write_picture(const uint8_t *image, size_t image_len, uint8_t *buffer, size_t buffer_len);

/** Writes a fresh follower, lost with floor 0, into an image of any content. Done, or refused: 21. */
uint64_t power_policy_follower_start(uint8_t *image, size_t image_len);

/** Takes a packet or picture. Done, also where it is held or dropped. Refused: 21, 30 to 33. */
uint64_t power_policy_follower_take(uint8_t *image, size_t image_len, const uint8_t *packet, size_t packet_len);

/** Lost, level or waiting, the number shown and the unconstrained figures; lost, these are 0. Shown, or refused: 21. */
uint64_t power_policy_follower_shown(const uint8_t *image, size_t image_len);

/** The consumer shown, none if lost. Consumer, or refused: 21. */
uint64_t power_policy_follower_consumer(const uint8_t *image, size_t image_len);

/** The tracked ports shown, none if lost. Tracked, or refused: 21. */
uint64_t power_policy_follower_tracked(const uint8_t *image, size_t image_len);

/** Writes the page of what is shown, POWER_POLICY_PAGE bytes; bytes of the buffer past it stay. A page is text without a 0 at its end: six
 * lines (number, state, port, millivolts, milliamps, tracked ports) of 40 columns and a newline each, the name left in 20 columns, the
 * figure right in 20, a hyphen for what is not there; tracked ports rise, with only commas between. Lost, all but the state is a hyphen.
 * Written, or refused: 21, 34. */
uint64_t power_policy_follower_write_page(const uint8_t *image, size_t image_len, uint8_t *buffer, size_t buffer_len);

/* Configurations. */

/** What a service is started with. Figures are as wide as power_policy_start takes them, so that one over its type is refused with 20
 * and not cut. Begin with a named configuration and change fields: later versions may have more of them. */
typedef struct power_policy_config {
    uint64_t threshold_mw;    /**< provided power above this is limited, to 4,294,967,295 */
    uint64_t unlimited_mv;    /**< a port is granted this at most while power is not limited, to 65,535 */
    uint64_t unlimited_ma;    /**< the same in mA */
    uint64_t limited_mv;      /**< a port is granted this while power is limited, to 65,535 */
    uint64_t limited_ma;      /**< the same in mA */
    uint64_t minimum_present; /**< 1 if there is a minimum, 0 if not; above 1 is refused with 20 */
    uint64_t minimum_mw;      /**< consumers below this are not considered, to 4,294,967,295; not looked at if there is no minimum */
} power_policy_config;

/** The configuration that equals the original Rust's Default: 15 W, 5 V at 3 A and at 1.5 A, no minimum. Who relies on having no minimum
 * takes this one. An initializer of a power_policy_config. */
#define POWER_POLICY_CONFIG_RUST_DEFAULT {15000, 5000, 3000, 5000, 1500, 0, 0}

/** The default configuration. An initializer of a power_policy_config. */
#define POWER_POLICY_CONFIG_DEFAULT POWER_POLICY_CONFIG_RUST_DEFAULT

/** Gives a configuration a minimum. */
static inline void power_policy_config_set_minimum(power_policy_config *config, uint32_t minimum_mw)
{
    config->minimum_present = 1;
    config->minimum_mw = minimum_mw;
}

/** Takes the minimum from a configuration. */
static inline void power_policy_config_clear_minimum(power_policy_config *config)
{
    config->minimum_present = 0;
    config->minimum_mw = 0;
}

/** power_policy_start with a configuration. Done, or refused: 20, 21. */
static inline uint64_t power_policy_start_with(uint8_t *image, size_t image_len, uint32_t ports, uint32_t chargers,
                                               const power_policy_config *config)
{
    return power_policy_start(image, image_len, ports, chargers, config->threshold_mw, config->unlimited_mv, config->unlimited_ma,
                              config->limited_mv, config->limited_ma, config->minimum_present, config->minimum_mw);
}

/** power_policy_start with POWER_POLICY_CONFIG_DEFAULT. Done, or refused: 20, 21. */
static inline uint64_t power_policy_start_default(uint8_t *image, size_t image_len, uint32_t ports, uint32_t chargers)
{
    const power_policy_config config = POWER_POLICY_CONFIG_DEFAULT;

    return power_policy_start_with(image, image_len, ports, chargers, &config);
}

/** power_policy_start with POWER_POLICY_CONFIG_RUST_DEFAULT. Done, or refused: 20, 21. */
static inline uint64_t power_policy_start_rust_default(uint8_t *image, size_t image_len, uint32_t ports, uint32_t chargers)
{
    const power_policy_config config = POWER_POLICY_CONFIG_RUST_DEFAULT;

    return power_policy_start_with(image, image_len, ports, chargers, &config);
}

/* Records. A record that a writer made of fields in their ranges is accepted; of a field out of its range it is refused with 22. */

/** A capability: what a supply offers, what a port asks for, or what was agreed. */
typedef struct power_policy_capability {
    uint16_t mv;   /**< mV */
    uint16_t ma;   /**< mA */
    uint8_t flags; /**< a POWER_POLICY_TYPE_, for a consumer also POWER_POLICY_FLAG_UNCONSTRAINED */
} power_policy_capability;

/** The power of a capability in mW: mV x mA / 1000, rounded down. */
static inline uint32_t power_policy_capability_mw(power_policy_capability capability)
{
    return (uint32_t)capability.mv * capability.ma / 1000;
}

/** The record of a port by its fields. All zeros is Detached with nothing offered and nothing asked for. */
typedef struct power_policy_psu {
    uint8_t state;                    /**< POWER_POLICY_PSU_DETACHED to POWER_POLICY_PSU_CONNECTED_CONSUMER */
    power_policy_capability contract; /**< what was agreed, in the two connected states */
    uint8_t consumer_present;         /**< 1 if a capability to consume is offered, 0 if not */
    power_policy_capability consumer; /**< the capability offered, if present */
    uint8_t request_present;          /**< 1 if the port asks to be provided, 0 if not */
    power_policy_capability request;  /**< the capability asked for, if present */
} power_policy_psu;

/** The record of a charger by its fields. All zeros is Unpowered with no capability. */
typedef struct power_policy_charger {
    uint8_t state;                      /**< POWER_POLICY_CHARGER_UNPOWERED to POWER_POLICY_CHARGER_PSU_IS_DETACHED */
    uint8_t capability_present;         /**< 1 if there is a capability, 0 if not */
    power_policy_capability capability; /**< the capability attached, if present */
} power_policy_charger;

/** Writes a number and the five bytes of a capability, zeros if there is none: a part of a record. */
static inline void power_policy_group_encode(uint8_t *group, uint8_t number, int present, power_policy_capability capability)
{
    const power_policy_capability none = {0, 0, 0};
    const power_policy_capability written = present ? capability : none;

    group[0] = number;
    group[1] = (uint8_t)(written.mv & 0xff);
    group[2] = (uint8_t)(written.mv >> 8);
    group[3] = (uint8_t)(written.ma & 0xff);
    group[4] = (uint8_t)(written.ma >> 8);
    group[5] = written.flags;
}

/** Reads the five bytes of a capability, from behind the number of a part of a record. */
static inline power_policy_capability power_policy_group_decode(const uint8_t *group)
{
    power_policy_capability capability;

    capability.mv = (uint16_t)(group[1] | group[2] << 8);
    capability.ma = (uint16_t)(group[3] | group[4] << 8);
    capability.flags = group[5];
    return capability;
}

/** Writes the record of a port, POWER_POLICY_PSU_RECORD bytes. A contract that the state does not have, and a capability or request that
 * is not present, are written as zeros, whatever their fields hold. */
static inline void power_policy_psu_encode(uint8_t *record, const power_policy_psu *psu)
{
    const int connected =
        psu->state == POWER_POLICY_PSU_CONNECTED_PROVIDER || psu->state == POWER_POLICY_PSU_CONNECTED_CONSUMER;

    power_policy_group_encode(record, psu->state, connected, psu->contract);
    power_policy_group_encode(record + 6, psu->consumer_present, psu->consumer_present != 0, psu->consumer);
    power_policy_group_encode(record + 12, psu->request_present, psu->request_present != 0, psu->request);
}

/** Reads the record of a port, POWER_POLICY_PSU_RECORD bytes, as they stand. */
static inline power_policy_psu power_policy_psu_decode(const uint8_t *record)
{
    power_policy_psu psu;

    psu.state = record[0];
    psu.contract = power_policy_group_decode(record);
    psu.consumer_present = record[6];
    psu.consumer = power_policy_group_decode(record + 6);
    psu.request_present = record[12];
    psu.request = power_policy_group_decode(record + 12);
    return psu;
}

/** Writes the records of so many ports, one after the other: count x POWER_POLICY_PSU_RECORD bytes. */
static inline void power_policy_psus_encode(uint8_t *records, const power_policy_psu *psus, size_t count)
{
    size_t i;

    for (i = 0; i < count; i++)
        power_policy_psu_encode(records + i * POWER_POLICY_PSU_RECORD, psus + i);
}

/** Writes the record of a charger, POWER_POLICY_CHARGER_RECORD bytes. A capability that is not present is written as zeros, whatever its
 * fields hold. */
static inline void power_policy_charger_encode(uint8_t *record, const power_policy_charger *charger)
{
    record[0] = charger->state;
    power_policy_group_encode(record + 1, charger->capability_present, charger->capability_present != 0, charger->capability);
}

/** Reads the record of a charger, POWER_POLICY_CHARGER_RECORD bytes, as they stand. */
static inline power_policy_charger power_policy_charger_decode(const uint8_t *record)
{
    power_policy_charger charger;

    charger.state = record[0];
    charger.capability_present = record[1];
    charger.capability = power_policy_group_decode(record + 1);
    return charger;
}

/** Writes the records of so many chargers, one after the other: count x POWER_POLICY_CHARGER_RECORD bytes. */
static inline void power_policy_chargers_encode(uint8_t *records, const power_policy_charger *chargers, size_t count)
{
    size_t i;

    for (i = 0; i < count; i++)
        power_policy_charger_encode(records + i * POWER_POLICY_CHARGER_RECORD, chargers + i);
}

/* The parts of a result. */

/** One byte of a result, the low byte being place 0. */
static inline unsigned power_policy_byte(uint64_t result, unsigned place)
{
    return (unsigned)(result >> (8 * place) & 0xff);
}

/** The outcome of any result, POWER_POLICY_OUTCOME_REFUSED to POWER_POLICY_OUTCOME_TRACKED: it says what the other parts are. */
static inline unsigned power_policy_outcome(uint64_t result)
{
    return power_policy_byte(result, 0);
}

/** The number of a refusal, 20 to 34, a POWER_POLICY_REFUSED_; 0 if the result is not refused. */
static inline unsigned power_policy_refusal(uint64_t result)
{
    return power_policy_outcome(result) == POWER_POLICY_OUTCOME_REFUSED ? power_policy_byte(result, 1) : 0;
}

/** What was refused, in words, for the number of a refusal; "not refused" for 0, and "unknown refusal" for a number that is none. */
static inline const char *power_policy_refusal_text(unsigned refusal)
{
    switch (refusal) {
    case 0: return "not refused";
    case POWER_POLICY_REFUSED_CONFIGURATION:
        return "over 16 ports or 8 chargers, a configuration figure over its type, or a minimum's presence above 1";
    case POWER_POLICY_REFUSED_IMAGE: return "bytes that no state is written as";
    case POWER_POLICY_REFUSED_RECORDS: return "records of wrong length or with a field out of range";
    case POWER_POLICY_REFUSED_DEVICE: return "a port or charger that is not registered";
    case POWER_POLICY_REFUSED_KIND:
        return "an unknown event kind, reason, PSU state or answer, or an answer that the order cannot have";
    case POWER_POLICY_REFUSED_OPEN: return "an event is open";
    case POWER_POLICY_REFUSED_NO_ORDER: return "no order is open";
    case POWER_POLICY_REFUSED_NO_EVENT: return "a packet before event 1";
    case POWER_POLICY_REFUSED_LAST_NUMBER: return "a PSU event after number 4,294,967,295";
    case POWER_POLICY_REFUSED_BUFFER: return "a buffer under 64 bytes";
    case POWER_POLICY_REFUSED_CUT_SHORT: return "a packet that is cut short or empty";
    case POWER_POLICY_REFUSED_NUMBER: return "a number that is not in its shortest form or over its limit";
    case POWER_POLICY_REFUSED_FIELD: return "a kind or field that is not as laid out";
    case POWER_POLICY_REFUSED_LEFT_OVER: return "bytes after the packet's end";
    case POWER_POLICY_REFUSED_PAGE: return "a buffer under 246 bytes for a page";
    default: return "unknown refusal";
    }
}

/** The kind of an order, POWER_POLICY_ORDER_DISCONNECT to POWER_POLICY_ORDER_WAIT. */
static inline unsigned power_policy_order_kind(uint64_t result)
{
    return power_policy_byte(result, 1);
}

/** The port or charger of an order; 0 for a wait. */
static inline unsigned power_policy_order_device(uint64_t result)
{
    return power_policy_byte(result, 2);
}

/** The milliseconds of a wait, POWER_POLICY_WAIT_MS. */
static inline unsigned power_policy_order_wait_ms(uint64_t result)
{
    return (unsigned)(result >> 32 & 0xffff);
}

/** The flags of the capability of a connect or attach order, or of a shown consumer. */
static inline unsigned power_policy_flags(uint64_t result)
{
    return power_policy_byte(result, 3);
}

/** The mV of the capability of a connect or attach order, or of a shown consumer. */
static inline unsigned power_policy_mv(uint64_t result)
{
    return (unsigned)(result >> 32 & 0xffff);
}

/** The mA of the capability of a connect or attach order, or of a shown consumer. */
static inline unsigned power_policy_ma(uint64_t result)
{
    return (unsigned)(result >> 48 & 0xffff);
}

/** The capability of a connect or attach order, or of a shown consumer. */
static inline power_policy_capability power_policy_result_capability(uint64_t result)
{
    power_policy_capability capability;

    capability.mv = (uint16_t)power_policy_mv(result);
    capability.ma = (uint16_t)power_policy_ma(result);
    capability.flags = (uint8_t)power_policy_flags(result);
    return capability;
}

/** The answer of a close, POWER_POLICY_ANSWER_DONE to POWER_POLICY_ANSWER_FAILED. */
static inline unsigned power_policy_closed_answer(uint64_t result)
{
    return power_policy_byte(result, 1);
}

/** The set of states that a close with POWER_POLICY_ANSWER_INVALID_STATE expected, bit s for state s; 0 if it has none. */
static inline unsigned power_policy_closed_expected(uint64_t result)
{
    return power_policy_byte(result, 2);
}

/** The actual state of a close that has expected ones; else 0. */
static inline unsigned power_policy_closed_actual(uint64_t result)
{
    return power_policy_byte(result, 3);
}

/** How many orders a closed event has given, 0 to 35, a failed one too; 0 for a charger's event. */
static inline unsigned power_policy_closed_orders(uint64_t result)
{
    return power_policy_byte(result, 4);
}

/** How many bytes of the buffer were written. */
static inline unsigned power_policy_written_length(uint64_t result)
{
    return power_policy_byte(result, 1);
}

/** What a follower is, POWER_POLICY_STATE_LOST to POWER_POLICY_STATE_WAITING. */
static inline unsigned power_policy_shown_state(uint64_t result)
{
    return power_policy_byte(result, 1);
}

/** 1 if the consumer shown is unconstrained, else 0. */
static inline unsigned power_policy_shown_unconstrained(uint64_t result)
{
    return power_policy_byte(result, 2);
}

/** How many unconstrained consumers are shown as available, 0 to 16. */
static inline unsigned power_policy_shown_available(uint64_t result)
{
    return power_policy_byte(result, 3);
}

/** The number of the event shown. */
static inline uint32_t power_policy_shown_number(uint64_t result)
{
    return (uint32_t)(result >> 32);
}

/** 1 if a consumer is shown, else 0. */
static inline unsigned power_policy_consumer_present(uint64_t result)
{
    return power_policy_byte(result, 1);
}

/** The port of the consumer shown. */
static inline unsigned power_policy_consumer_port(uint64_t result)
{
    return power_policy_byte(result, 2);
}

/** How many ports are tracked, 0 to 4. */
static inline unsigned power_policy_tracked_count(uint64_t result)
{
    return power_policy_byte(result, 1);
}

/** The ports tracked, bit p for port p. */
static inline unsigned power_policy_tracked_ports(uint64_t result)
{
    return (unsigned)(result >> 16 & 0xffff);
}

#ifdef __cplusplus
}
#endif

#endif
