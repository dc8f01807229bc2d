#!/bin/sh
# usage: mutations.sh
#
# Tries the comparison with the Rust itself: breaks a copy of the Rust, one place at a time, and asks that the replay finds it. Not a
# part of the gate: it builds the Rust once for each change. Needs target/bin/replay_service (sh tests/built.sh replay_service), cargo and the
# original sources (../shared/docs/src, or POWER_POLICY_RUST).
# Writes a line for each change and, last, 'N passed, M failed'.
set -u
cd "$(dirname "$0")/.." || exit 2
src=${POWER_POLICY_RUST:-../shared/docs/src}
work=$(mktemp -d)
trap 'rm -rf "$work"' EXIT
passed=0
failed=0

# Changes the one place of FILE that has OLD and replays small worlds and random ones made by the changed Rust.
changed() { # WHAT FILE OLD NEW
    rm -rf "$work/src"
    cp -r "$src" "$work/src"
    file=$work/src/power-policy-service/src/service/$2
    if [ "$(OLD=$3 perl -0ne 'print scalar(() = /\Q$ENV{OLD}\E/g)' "$file")" -ne 1 ]; then
        echo "FAILED: $1: what is to be changed does not stand in $2 once"
        failed=$((failed + 1))
        return
    fi
    OLD=$3 NEW=$4 perl -0pi -e 's/\Q$ENV{OLD}\E/$ENV{NEW}/' "$file"
    said=$({
        POWER_POLICY_RUST=$work/src rust/run-oracle.sh service exhaustive
        POWER_POLICY_RUST=$work/src rust/run-oracle.sh service stream 1 20000
    } | target/bin/replay_service | grep ' vectors, ')
    case $said in
    *' vectors, 0 differ' | '')
        echo "FAILED: $1: not found ($said)"
        failed=$((failed + 1))
        ;;
    *)
        echo "ok: $1: $said"
        passed=$((passed + 1))
        ;;
    esac
}

changed "a later port wins on equal milliwatts" consumer.rs ") == core::cmp::Ordering::Greater" ") != core::cmp::Ordering::Less"
changed "the minimum itself is not eligible" consumer.rs "cap.capability.max_power_mw() < min)" "cap.capability.max_power_mw() <= min)"
changed "the current consumer has no advantage" consumer.rs "(a.capability, a_is_current).cmp(&(b.capability, b_is_current))" "{ let _ = (a_is_current, b_is_current); a.capability.cmp(&b.capability) }"
changed "an unchanged consumer is connected again" consumer.rs "&& new_consumer.consumer_power_capability == current_consumer.consumer_power_capability" "&& false"
changed "the event's reason also where the port is the same" consumer.rs "DisconnectReason::AutoRenegotiation" "disconnect.reason.unwrap_or(DisconnectReason::AutoRenegotiation)"
changed "unpowered chargers are detached too" consumer.rs "if !locked_charger.state().is_unpowered() {" "if true {"
changed "a ready charger is not initialized" consumer.rs "locked_charger
                    .init_charger()
                    .await
                    .map_err(|e| Error::Charger(e.into()))?;" ""
changed "the figures are told of whether they change or not" consumer.rs "if unconstrained_new != self.state.unconstrained {" "if true {"
changed "the threshold itself is limited" provider.rs "> self.config.limited_power_threshold_mw {
            self.state.current_provider_state.state = PowerState::Limited;
        } else {
            self.state.current_provider_state.state = PowerState::Unlimited;
        }

        debug!" ">= self.config.limited_power_threshold_mw {
            self.state.current_provider_state.state = PowerState::Limited;
        } else {
            self.state.current_provider_state.state = PowerState::Unlimited;
        }

        debug!"
changed "a request is granted though it reaches the unlimited capability" provider.rs "max_power_mw() < self.config.provider_unlimited.max_power_mw()" "max_power_mw() <= self.config.provider_unlimited.max_power_mw()"
changed "an untracked port is told of" provider.rs "            false
        }" "            self.notify_provider_disconnected(psu).await; false
        }"
changed "a detached port is not untracked" mod.rs "        self.post_provider_removed(device).await;
        self.update_current_consumer(DisconnectFlags {" "        self.update_current_consumer(DisconnectFlags {"

echo "$passed passed, $failed failed"
[ "$failed" -eq 0 ]
