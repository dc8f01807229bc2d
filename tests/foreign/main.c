/* A project of somebody else: one port offers 60 W, and the policy connects it. */
#include <stdio.h>

#include <power_policy.h>

/* A port that obeys. */
static void obey(uint64_t order, power_policy_psu *psu)
{
    if (power_policy_order_kind(order) == POWER_POLICY_ORDER_CONNECT_CONSUMER) {
        psu->state = POWER_POLICY_PSU_CONNECTED_CONSUMER;
        psu->contract = power_policy_result_capability(order);
        printf("connect port %u, %lu mW\n", power_policy_order_device(order), (unsigned long)power_policy_capability_mw(psu->contract));
    } else if (power_policy_order_kind(order) == POWER_POLICY_ORDER_WAIT) {
        printf("wait %u ms\n", power_policy_order_wait_ms(order));
    }
}

int main(void)
{
    uint8_t service[POWER_POLICY_IMAGE];
    uint8_t records[POWER_POLICY_PSU_RECORD];
    power_policy_psu psu = {POWER_POLICY_PSU_IDLE, {0, 0, 0}, 1, {20000, 3000, POWER_POLICY_TYPE_C}, 0, {0, 0, 0}};
    power_policy_config config = POWER_POLICY_CONFIG_RUST_DEFAULT;
    uint64_t reply;

    power_policy_config_set_minimum(&config, 7500);
    reply = power_policy_start_with(service, sizeof service, 1, 0, &config);
    if (power_policy_refusal(reply) == 0) {
        power_policy_psus_encode(records, &psu, 1);
        reply = power_policy_open(service, sizeof service, records, sizeof records, NULL, 0,
                                  POWER_POLICY_EVENT_UPDATED_CONSUMER_CAPABILITY, 0, 0);
    }
    while (power_policy_outcome(reply) == POWER_POLICY_OUTCOME_ORDER) {
        obey(reply, &psu);
        power_policy_psus_encode(records, &psu, 1);
        reply = power_policy_answer(service, sizeof service, records, sizeof records, NULL, 0, POWER_POLICY_ANSWER_DONE);
    }
    if (power_policy_refusal(reply) != 0) {
        printf("refused: %s\n", power_policy_refusal_text(power_policy_refusal(reply)));
        return 1;
    }
    printf("closed after %u orders\n", power_policy_closed_orders(reply));
    return 0;
}
