#!/usr/bin/env bash
# Times how a million names become keys: builds bench/keys.rattle in a copy of the crates that it needs, which takes some
# minutes the first time, and runs it three times. Changes nothing but files in a temporary folder.
set -eu
here=$(cd "$(dirname "$0")" && pwd)
folder=$(mktemp -d)
trap 'rm -rf "$folder"' EXIT
mkdir -p "$folder/crates/keys/src"
cp "$here/../HANDLES" "$folder/"
for crate in zone_model dns_name shift_key; do
    cp -r "$here/../crates/$crate" "$folder/crates/"
done
cp "$here/keys.rattle" "$folder/crates/keys/src/main.rt"
printf '%s\n' 'zone_model:' 'dns_name: zone_model' 'shift_key: zone_model dns_name' 'keys: dns_name shift_key' \
    >"$folder/crates.txt"
python3 - >"$folder/names" <<'PY'
import random
draw = random.Random(1)
for number in range(1_000_000):
    print(f"n{draw.randrange(10**6)}.host{number % 1000}.example.")
PY
git -C "$folder" init -q
(cd "$folder/crates/keys" && rt run </dev/null >"$folder/build" 2>&1) || { tail -5 "$folder/build"; exit 1; }
for _ in 1 2 3; do
    /usr/bin/time -f '%e s, %M KiB' "$folder/crates/keys/out/keys" <"$folder/names"
done
