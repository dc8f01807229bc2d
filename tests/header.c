/* What the inline functions of include/power_policy.h do, beside the archive: configurations, records, refusals in words, a page, the
 * parts of a result. Compiled as C99, C11 and C++ with every warning an error (tests/examples.sh). Prints what does not hold. */
#include <stdio.h>
#include <string.h>

#include "power_policy.h"

#define PORTS 2
#define CHARGERS 1

static int wrong;

static void expect(int holds, const char *what)
{
    if (!holds) {
        printf("does not hold: %s\n", what);
        wrong = 1;
    }
}

static void version(void)
{
    unsigned major = 0, minor = 0, patch = 0;

    expect(sscanf(POWER_POLICY_VERSION, "%u.%u.%u", &major, &minor, &patch) == 3, "the version is three numbers");
    expect(10000 * major + 100 * minor + patch == POWER_POLICY_VERSION_NUMBER, "the version's number");
}

/* A start by name leaves the image of a start by these figures. */
static void started(const char *what, uint64_t result, const uint8_t *image, uint64_t minimum_present, uint64_t minimum_mw)
{
    uint8_t wanted[POWER_POLICY_IMAGE];

    power_policy_start(wanted, sizeof wanted, PORTS, CHARGERS, 15000, 5000, 3000, 5000, 1500, minimum_present, minimum_mw);
    expect(power_policy_outcome(result) == POWER_POLICY_OUTCOME_DONE, what);
    expect(memcmp(image, wanted, sizeof wanted) == 0, what);
}

static void configurations(void)
{
    uint8_t image[POWER_POLICY_IMAGE];
    power_policy_config config = POWER_POLICY_CONFIG_RUST_DEFAULT;
    const power_policy_config by_default = POWER_POLICY_CONFIG_DEFAULT;

    started("start, rust default", power_policy_start_rust_default(image, sizeof image, PORTS, CHARGERS), image, 0, 0);
    started("start, default", power_policy_start_default(image, sizeof image, PORTS, CHARGERS), image, by_default.minimum_present,
            by_default.minimum_mw);
    power_policy_config_set_minimum(&config, 7500);
    started("start, minimum", power_policy_start_with(image, sizeof image, PORTS, CHARGERS, &config), image, 1, 7500);
    power_policy_config_clear_minimum(&config);
    started("start, no minimum", power_policy_start_with(image, sizeof image, PORTS, CHARGERS, &config), image, 0, 0);
    config.minimum_present = 2;
    expect(power_policy_refusal(power_policy_start_with(image, sizeof image, PORTS, CHARGERS, &config)) ==
               POWER_POLICY_REFUSED_CONFIGURATION,
           "a presence above 1 is 20");
    config = by_default;
    config.limited_ma = 65536;
    expect(power_policy_refusal(power_policy_start_with(image, sizeof image, PORTS, CHARGERS, &config)) ==
               POWER_POLICY_REFUSED_CONFIGURATION,
           "a figure over its type is 20");
}

static int same_capability(power_policy_capability a, power_policy_capability b)
{
    return a.mv == b.mv && a.ma == b.ma && a.flags == b.flags;
}

/* The refusal of an attach of port 0 with these records, 0 if there is none. */
static unsigned refused(const power_policy_psu *psus, const power_policy_charger *charger)
{
    uint8_t image[POWER_POLICY_IMAGE];
    uint8_t psu_records[PORTS * POWER_POLICY_PSU_RECORD];
    uint8_t charger_records[CHARGERS * POWER_POLICY_CHARGER_RECORD];

    power_policy_start_default(image, sizeof image, PORTS, CHARGERS);
    power_policy_psus_encode(psu_records, psus, PORTS);
    power_policy_chargers_encode(charger_records, charger, CHARGERS);
    return power_policy_refusal(power_policy_open(image, sizeof image, psu_records, sizeof psu_records, charger_records,
                                                  sizeof charger_records, POWER_POLICY_EVENT_ATTACHED, 0, 0));
}

static void bytes_of_records(void)
{
    const power_policy_psu psu = {POWER_POLICY_PSU_CONNECTED_CONSUMER, {0x1234, 0x5678, 3}, 1, {0x2345, 0x6789, 5}, 1, {0x3456, 0x789a, 8}};
    const uint8_t psu_bytes[] = {3, 0x34, 0x12, 0x78, 0x56, 3, 1, 0x45, 0x23, 0x89, 0x67, 5, 1, 0x56, 0x34, 0x9a, 0x78, 8};
    const power_policy_charger charger = {POWER_POLICY_CHARGER_PSU_IS_ATTACHED, 1, {0x1234, 0x5678, 13}};
    const uint8_t charger_bytes[] = {2, 1, 0x34, 0x12, 0x78, 0x56, 13};
    uint8_t record[POWER_POLICY_PSU_RECORD];
    power_policy_psu psu_read;
    power_policy_charger charger_read;

    power_policy_psu_encode(record, &psu);
    expect(memcmp(record, psu_bytes, sizeof psu_bytes) == 0, "the bytes of a port's record");
    psu_read = power_policy_psu_decode(record);
    expect(psu_read.state == psu.state && same_capability(psu_read.contract, psu.contract), "state and contract read back");
    expect(psu_read.consumer_present == 1 && same_capability(psu_read.consumer, psu.consumer), "the capability read back");
    expect(psu_read.request_present == 1 && same_capability(psu_read.request, psu.request), "the request read back");

    power_policy_charger_encode(record, &charger);
    expect(memcmp(record, charger_bytes, sizeof charger_bytes) == 0, "the bytes of a charger's record");
    charger_read = power_policy_charger_decode(record);
    expect(charger_read.state == charger.state && charger_read.capability_present == 1, "a charger read back");
    expect(same_capability(charger_read.capability, charger.capability), "its capability read back");
}

/* Every state, with and without each part: accepted, with whatever is left in the fields that are not in use. */
static void accepted_records(void)
{
    power_policy_psu psus[PORTS] = {{0, {0, 0, 0}, 0, {0, 0, 0}, 0, {0, 0, 0}}, {0, {0, 0, 0}, 0, {0, 0, 0}, 0, {0, 0, 0}}};
    power_policy_charger charger = {0, 0, {5000, 3000, POWER_POLICY_TYPE_C}};
    const power_policy_capability left = {5000, 3000, POWER_POLICY_TYPE_C};
    unsigned i;

    psus[1].contract = psus[1].consumer = psus[1].request = left;
    for (i = 0; i < 32; i++) {
        psus[1].state = (uint8_t)(i & 3);
        charger.state = (uint8_t)(i & 3);
        psus[1].consumer_present = (uint8_t)(i >> 2 & 1);
        psus[1].request_present = (uint8_t)(i >> 3 & 1);
        charger.capability_present = (uint8_t)(i >> 4 & 1);
        expect(refused(psus, &charger) == 0, "a record of fields in their ranges");
    }
    psus[1].state = 4;
    expect(refused(psus, &charger) == POWER_POLICY_REFUSED_RECORDS, "state 4 is 22");
    psus[1].state = 0;
    psus[1].request_present = 2;
    expect(refused(psus, &charger) == POWER_POLICY_REFUSED_RECORDS, "presence 2 is 22");
    psus[1].request_present = 1;
    psus[1].request.flags = POWER_POLICY_TYPE_C | POWER_POLICY_FLAG_UNCONSTRAINED;
    expect(refused(psus, &charger) == POWER_POLICY_REFUSED_RECORDS, "a request that is unconstrained is 22");
}

static void refusals(void)
{
    unsigned number, other;

    for (number = 20; number <= 34; number++) {
        expect(strcmp(power_policy_refusal_text(number), power_policy_refusal_text(19)) != 0, "each refusal has words");
        for (other = 20; other < number; other++)
            expect(strcmp(power_policy_refusal_text(number), power_policy_refusal_text(other)) != 0, "each has its own");
        expect(power_policy_refusal((uint64_t)number << 8) == number, "the number of a refusal");
    }
    expect(strcmp(power_policy_refusal_text(0), "not refused") == 0, "0 is no refusal");
    expect(strcmp(power_policy_refusal_text(19), "unknown refusal") == 0, "19 is no refusal");
    expect(strcmp(power_policy_refusal_text(255), "unknown refusal") == 0, "255 is no refusal");
    expect(power_policy_refusal(0x1902) == 0, "a close with byte 1 at 25 is not refused");
}

/* The page of a fresh follower, whole and in a buffer that is too short. */
static void pages(void)
{
    const char state[] = "state                               lost\n";
    uint8_t image[POWER_POLICY_FOLLOWER_IMAGE];
    uint8_t page[POWER_POLICY_PAGE];
    uint64_t result;

    power_policy_follower_start(image, sizeof image);
    result = power_policy_follower_write_page(image, sizeof image, page, sizeof page - 1);
    expect(power_policy_refusal(result) == POWER_POLICY_REFUSED_PAGE, "a buffer of 245 bytes is 34");
    result = power_policy_follower_write_page(image, sizeof image - 1, page, sizeof page - 1);
    expect(power_policy_refusal(result) == POWER_POLICY_REFUSED_IMAGE, "no image is 21, whatever the buffer");
    result = power_policy_follower_write_page(image, sizeof image, page, sizeof page);
    expect(power_policy_outcome(result) == POWER_POLICY_OUTCOME_WRITTEN, "a page is written");
    expect(power_policy_written_length(result) == POWER_POLICY_PAGE, "the length of a page");
    expect(memcmp(page + 41, state, sizeof state - 1) == 0, "the second line of a lost follower");
}

static void parts(void)
{
    const power_policy_capability all = {65535, 65535, 0};
    const power_policy_capability capability = {0x1234, 0x5678, 13};

    expect(same_capability(power_policy_result_capability(UINT64_C(0x567812340D0F0101)), capability), "the capability of an order");
    expect(power_policy_order_kind(UINT64_C(0x567812340D0F0101)) == POWER_POLICY_ORDER_CONNECT_CONSUMER, "the kind of an order");
    expect(power_policy_order_device(UINT64_C(0x567812340D0F0101)) == 15, "the device of an order");
    expect(power_policy_order_wait_ms(UINT64_C(0x032000000701)) == POWER_POLICY_WAIT_MS, "the milliseconds of a wait");
    expect(power_policy_closed_orders(UINT64_C(0x03020A0402)) == 3 && power_policy_closed_answer(0x0402) == 4, "orders and answer");
    expect(power_policy_closed_expected(0x020A0402) == 10 && power_policy_closed_actual(0x020A0402) == 2, "expected and actual");
    expect(power_policy_written_length(0xFF03) == 255, "a length of 255");
    expect(power_policy_shown_number(UINT64_C(0xFFFFFFFF10010205)) == UINT32_C(4294967295), "the number shown");
    expect(power_policy_shown_state(0x10010205) == POWER_POLICY_STATE_WAITING, "the state shown");
    expect(power_policy_shown_unconstrained(0x10010205) == 1 && power_policy_shown_available(0x10010205) == 16, "the figures shown");
    expect(power_policy_consumer_present(0x0F0106) == 1 && power_policy_consumer_port(0x0F0106) == 15, "the consumer shown");
    expect(power_policy_tracked_count(0x80010207) == 2 && power_policy_tracked_ports(0x80010207) == 0x8001, "the ports tracked");
    expect(power_policy_capability_mw(all) == UINT32_C(4294836), "the power of the greatest capability");
}

int main(void)
{
    version();
    configurations();
    bytes_of_records();
    accepted_records();
    refusals();
    pages();
    parts();
    return wrong;
}
