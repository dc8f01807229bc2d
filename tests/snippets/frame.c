/* What README.md's snippet in C is put into, where the line README stands: two ports and a charger that obey. */
#include <stdio.h>

#include "power_policy.h"

static power_policy_psu ports[2];
static power_policy_charger charger;
static uint8_t psus[2 * POWER_POLICY_PSU_RECORD];
static uint8_t chargers[POWER_POLICY_CHARGER_RECORD];
static unsigned orders;  /* how many orders were carried out */
static unsigned refused; /* the order, counted from 1, whose answer is one that no order has */

static void write_records(void)
{
    power_policy_psus_encode(psus, ports, 2);
    power_policy_chargers_encode(chargers, &charger, 1);
}

static uint32_t carry_out(uint64_t order)
{
    if (power_policy_order_kind(order) == POWER_POLICY_ORDER_CONNECT_CONSUMER) {
        ports[power_policy_order_device(order)].state = POWER_POLICY_PSU_CONNECTED_CONSUMER;
        ports[power_policy_order_device(order)].contract = power_policy_result_capability(order);
    }
    write_records();
    orders++;
    return orders == refused ? 11 : POWER_POLICY_ANSWER_DONE;
}

static unsigned update(void)
{
README
}

/* The snippet gives this refusal after so many orders. */
static int gives(unsigned refusal, unsigned count)
{
    const power_policy_psu offering = {POWER_POLICY_PSU_IDLE, {0, 0, 0}, 1, {5000, 3000, POWER_POLICY_TYPE_C}, 0, {0, 0, 0}};
    unsigned given;

    ports[0] = offering;
    write_records();
    orders = 0;
    given = update();
    if (given == refusal && orders == count)
        return 1;
    printf("refusal %u after %u orders, not %u after %u\n", given, orders, refusal, count);
    return 0;
}

int main(void)
{
    /* connect, wait, is_ready, init_charger, attach */
    int closes = gives(0, 5);
    int leaves;

    refused = 3;
    leaves = gives(POWER_POLICY_REFUSED_KIND, 3);
    return closes && leaves ? 0 : 1;
}
