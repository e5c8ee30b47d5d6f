#!/bin/sh
# Plants each wrong rule of src/planted.rs in this crate's meter and checks
# that the comparison with the proved meter finds it within 1,000 trips, as many
# files and lists on boxes, and 10,000 accounts and texts.
# planted.sh [SEED]
set -eu
CDPATH= cd -- "$(dirname -- "$0")"
seed=${1:-1}
target=${CARGO_TARGET_DIR:-target}/planted
cargo build --release --quiet --features planted --bin differ --target-dir "$target"
differ=$(cd "$target" && pwd)/release/differ
scratch=$(mktemp -d)
trap 'rm -rf "$scratch"' EXIT
cd "$scratch"

# run RULE
run() {
    METER_WRONG=$1 "$differ" --seed "$seed" --trips 1000 --damaged 1000 --accounts 10000 --boxes 1000 --texts 10000 \
        >out 2>err
}

# Without a wrong rule nothing may differ. So short a run may miss events (3).
status=0
run none || status=$?
if [ "$status" -ne 0 ] && [ "$status" -ne 3 ]; then
    cat err out
    echo "planted: the meters differ without a wrong rule, or the comparison does not run"
    exit 1
fi
rule=1
missed=0
all=1
while [ "$rule" -le "$all" ]; do
    status=0
    run "$rule" || status=$?
    name=$(sed -n "s/^differ: wrong rule $rule of [0-9]*, //p" err)
    if [ -z "$name" ]; then
        echo "planted: rule $rule was not planted"
        exit 1
    fi
    all=$(sed -n "s/^differ: wrong rule $rule of \([0-9]*\), .*/\1/p" err)
    if [ "$status" -eq 1 ] && grep -q ' 1 mismatch$' out; then
        after=$(sed -n 's/^differ: \(.*\), 1 mismatch$/\1/p' out)
        what=$(sed -n 's/^seed [0-9]*, //p' out | sed -e 's/ (plan.*//' -e 's/ ([0-9].*//')
        echo "$rule $name: found after $after ($what)"
    else
        echo "$rule $name: NOT found within 1,000 trips"
        missed=$((missed + 1))
    fi
    rule=$((rule + 1))
done
echo "planted: $all wrong rules, $missed not found (seed $seed)"
[ "$missed" -eq 0 ]
