#!/usr/bin/env bash
# Tries serial-order.py on captures whose orders it did not make, and on the same ones with times: that of serial-session was noted by
# its server.
set -euo pipefail
cd "$(dirname "$0")"
timed="$(mktemp)"
trap 'rm -f "$timed"' EXIT
for name in serial-session first-lookup answered-twice error-without-cause; do
    ./serial-order.py "$name.cap" | cmp - "$name.order"
    { echo 'magic "FUSECAP2"' && ../cases/messages.py write "$name.cap"; } | ../cases/messages.py read - > "$timed"
    ./serial-order.py "$timed" | cmp - "$name.order"
done
echo "1 passed, 0 failed"
