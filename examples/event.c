/* A console of three ports and two chargers, and a desk that follows it: a supply is attached and chosen, a device is provided,
 * and the supply is detached while a charger does not answer. Last comes the desk's page. Prints what
 * rust/power_policy/examples/event.rs prints. */
#include <stdio.h>
#include <stdlib.h>

#include "power_policy.h"

#define PORTS 3
#define CHARGERS 2

static uint8_t service[POWER_POLICY_IMAGE];
static uint8_t follower[POWER_POLICY_FOLLOWER_IMAGE];
static power_policy_psu psus[PORTS];
static power_policy_charger chargers[CHARGERS];
static int deaf; /* whether chargers no longer answer */

/* Stops at a refusal. */
static uint64_t check(uint64_t result)
{
    unsigned refusal = power_policy_refusal(result);

    if (refusal != 0) {
        printf("refused with %u: %s\n", refusal, power_policy_refusal_text(refusal));
        exit(1);
    }
    return result;
}

static void print_capability(power_policy_capability capability)
{
    printf(", %u mV, %u mA, flags %u\n", (unsigned)capability.mv, (unsigned)capability.ma, (unsigned)capability.flags);
}

/* Does an order to a port, as a device that obeys. */
static uint32_t perform_psu(uint64_t order, unsigned port)
{
    power_policy_psu *psu = &psus[port];
    power_policy_capability capability = power_policy_result_capability(order);

    switch (power_policy_order_kind(order)) {
    case POWER_POLICY_ORDER_DISCONNECT:
        printf("  order: disconnect port %u\n", port);
        psu->state = POWER_POLICY_PSU_IDLE;
        return POWER_POLICY_ANSWER_DONE;
    case POWER_POLICY_ORDER_CONNECT_CONSUMER:
        printf("  order: connect consumer, port %u", port);
        psu->state = POWER_POLICY_PSU_CONNECTED_CONSUMER;
        break;
    default:
        printf("  order: connect provider, port %u", port);
        psu->state = POWER_POLICY_PSU_CONNECTED_PROVIDER;
        break;
    }
    print_capability(capability);
    psu->contract = capability;
    return POWER_POLICY_ANSWER_DONE;
}

/* Does an order to a charger, as a device that obeys but may be deaf. */
static uint32_t perform_charger(uint64_t order, unsigned number)
{
    power_policy_charger *charger = &chargers[number];

    switch (power_policy_order_kind(order)) {
    case POWER_POLICY_ORDER_IS_READY:
        printf("  order: is_ready, charger %u\n", number);
        charger->state = POWER_POLICY_CHARGER_INIT;
        break;
    case POWER_POLICY_ORDER_INIT_CHARGER:
        printf("  order: init_charger, charger %u\n", number);
        charger->state = POWER_POLICY_CHARGER_PSU_IS_ATTACHED;
        break;
    case POWER_POLICY_ORDER_ATTACH:
        printf("  order: attach, charger %u", number);
        charger->capability_present = 1;
        charger->capability = power_policy_result_capability(order);
        print_capability(charger->capability);
        break;
    default:
        printf("  order: detach, charger %u\n", number);
        break;
    }
    return deaf ? POWER_POLICY_ANSWER_CHARGER : POWER_POLICY_ANSWER_DONE;
}

/* Does an order and gives the answer. */
static uint32_t perform(uint64_t order)
{
    unsigned device = power_policy_order_device(order);

    switch (power_policy_order_kind(order)) {
    case POWER_POLICY_ORDER_WAIT:
        printf("  order: wait %u ms\n", power_policy_order_wait_ms(order));
        return POWER_POLICY_ANSWER_DONE;
    case POWER_POLICY_ORDER_DISCONNECT:
    case POWER_POLICY_ORDER_CONNECT_CONSUMER:
    case POWER_POLICY_ORDER_CONNECT_PROVIDER:
        return device < PORTS ? perform_psu(order, device) : POWER_POLICY_ANSWER_INVALID_DEVICE;
    default:
        return device < CHARGERS ? perform_charger(order, device) : POWER_POLICY_ANSWER_CHARGER;
    }
}

/* Hands the bytes to the follower and prints them and what it shows. */
static void take(const char *what, const uint8_t *packet, size_t length)
{
    uint64_t shown, consumer, tracked;
    size_t i;

    printf("  %s:", what);
    for (i = 0; i < length; i++)
        printf(" %02x", (unsigned)packet[i]);
    printf("\n");
    check(power_policy_follower_take(follower, sizeof follower, packet, length));
    shown = check(power_policy_follower_shown(follower, sizeof follower));
    consumer = check(power_policy_follower_consumer(follower, sizeof follower));
    tracked = check(power_policy_follower_tracked(follower, sizeof follower));
    if (power_policy_shown_state(shown) == POWER_POLICY_STATE_LOST) {
        printf("  desk: lost\n");
        return;
    }
    printf("  desk: event %lu", (unsigned long)power_policy_shown_number(shown));
    if (power_policy_consumer_present(consumer))
        printf(", consumer %u with %lu mW", power_policy_consumer_port(consumer),
               (unsigned long)power_policy_capability_mw(power_policy_result_capability(consumer)));
    else
        printf(", no consumer");
    printf(", unconstrained %u of %u", power_policy_shown_unconstrained(shown), power_policy_shown_available(shown));
    printf(", tracked 0x%04x\n", power_policy_tracked_ports(tracked));
}

static void take_packet(void)
{
    uint8_t buffer[POWER_POLICY_BUFFER];
    uint64_t written = check(power_policy_write_packet(service, sizeof service, buffer, sizeof buffer));
    take("packet", buffer, power_policy_written_length(written));
}

static void take_picture(void)
{
    uint8_t buffer[POWER_POLICY_BUFFER];
    uint64_t written = check(power_policy_write_picture(service, sizeof service, buffer, sizeof buffer));
    take("picture", buffer, power_policy_written_length(written));
}

static void print_page(void)
{
    uint8_t page[POWER_POLICY_PAGE];

    check(power_policy_follower_write_page(follower, sizeof follower, page, sizeof page));
    fwrite(page, 1, sizeof page, stdout);
}

/* The present records, as bytes. */
static uint8_t psu_records[PORTS * POWER_POLICY_PSU_RECORD];
static uint8_t charger_records[CHARGERS * POWER_POLICY_CHARGER_RECORD];

static void write_records(void)
{
    power_policy_psus_encode(psu_records, psus, PORTS);
    power_policy_chargers_encode(charger_records, chargers, CHARGERS);
}

/* Opens an event with the present records. */
static uint64_t open_event(uint32_t kind, uint32_t port)
{
    write_records();
    return check(power_policy_open(service, sizeof service, psu_records, sizeof psu_records, charger_records, sizeof charger_records,
                                   kind, port, 0));
}

/* Answers the last order with the present records. */
static uint64_t answer_order(uint32_t answer)
{
    write_records();
    return check(power_policy_answer(service, sizeof service, psu_records, sizeof psu_records, charger_records, sizeof charger_records,
                                     answer));
}

/* An event from its opening to its close. */
static void run_event(const char *what, uint32_t kind, uint32_t port)
{
    uint64_t reply;

    printf("%s\n", what);
    reply = open_event(kind, port);
    while (power_policy_outcome(reply) == POWER_POLICY_OUTCOME_ORDER)
        reply = answer_order(perform(reply));
    if (power_policy_closed_answer(reply) == POWER_POLICY_ANSWER_DONE)
        printf("  closed: done");
    else if (power_policy_closed_expected(reply) == 0)
        printf("  closed: error %u", power_policy_closed_answer(reply));
    else
        printf("  closed: expected 0x%x, actual %u", power_policy_closed_expected(reply), power_policy_closed_actual(reply));
    printf(", orders %u\n", power_policy_closed_orders(reply));
    take_packet();
}

int main(void)
{
    const power_policy_psu unplugged = {POWER_POLICY_PSU_DETACHED, {0, 0, 0}, 0, {0, 0, 0}, 0, {0, 0, 0}};
    const power_policy_capability sixty_watts = {20000, 3000, POWER_POLICY_TYPE_C | POWER_POLICY_FLAG_UNCONSTRAINED};
    const power_policy_capability four_and_a_half_watts = {5000, 900, POWER_POLICY_TYPE_C};

    chargers[0].state = POWER_POLICY_CHARGER_PSU_IS_DETACHED;
    check(power_policy_start_default(service, sizeof service, PORTS, CHARGERS));
    check(power_policy_follower_start(follower, sizeof follower));

    printf("start\n");
    take_picture();

    psus[1].state = POWER_POLICY_PSU_IDLE;
    run_event("port 1 attached", POWER_POLICY_EVENT_ATTACHED, 1);

    psus[1].consumer_present = 1;
    psus[1].consumer = sixty_watts;
    run_event("port 1 offers 60 W", POWER_POLICY_EVENT_UPDATED_CONSUMER_CAPABILITY, 1);

    psus[2].state = POWER_POLICY_PSU_IDLE;
    psus[2].request_present = 1;
    psus[2].request = four_and_a_half_watts;
    run_event("port 2 asks for 4.5 W", POWER_POLICY_EVENT_REQUESTED_PROVIDER_CAPABILITY, 2);

    psus[1] = unplugged;
    deaf = 1;
    run_event("port 1 detached, chargers deaf", POWER_POLICY_EVENT_DETACHED, 1);
    take_picture();
    print_page();
    return 0;
}
