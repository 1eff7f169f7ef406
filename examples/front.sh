#!/usr/bin/env bash
# Starts examples/front.py on a zone, asks it the questions of front.due by dig, and compares what comes with what is due, which was written
# down from the RFCs. The last line is 'N questions as due', or what differs. It wants python3-dnspython and dig.
# Usage: examples/front.sh [PROGRAM] (./qpzone)
set -eu
cd "$(dirname "$0")"
folder=$(mktemp -d)
mkfifo "$folder/said"
./front.py --port 0 --program "${1:-../qpzone}" example. front.zone >"$folder/said" &
front=$!
trap 'kill $front 2>/dev/null || true; rm -rf "$folder"' EXIT
exec 3<"$folder/said"
read -r _ port <&3

# told WORD..: the code, the flags, and the records of the sections that dig tells; of a transfer how many records, the first and the last
told() {
  local transfer=0
  [[ " $* " != *" AXFR "* ]] || transfer=1
  dig @127.0.0.1 -p "$port" +norecurse +noedns +nocookie +noall +comments +answer +authority +additional +tries=1 +time=5 "$@" |
    awk -v transfer=$transfer '
      /->>HEADER<<-/ { sub(",", "", $6); code = $6 }
      /^;; flags:/ && !transfer { sub(/^;; flags: qr ?/, ""); sub(/;.*/, ""); print code ($0 == "" ? "" : " " $0); next }
      /^;; [A-Z]+ SECTION/ { section = tolower($2) }
      /^[^;]/ { $1 = $1; if (!transfer) print section, $0; else { if (!n++) first = $0; last = $0 } }
      END { if (transfer) print n ? n " records\nfirst " first "\nlast " last : code }'
}

while read -r mark words; do
  [[ $mark != '?' ]] || { echo "? $words"; told $words; }
done <front.due >"$folder/came"
grep -v '^#' front.due >"$folder/due"
questions=$(grep -c '^?' "$folder/due")
diff "$folder/due" "$folder/came" || { echo "not as due"; exit 1; }
kill $front
read -r last <&3
wait $front
echo "$last"
echo "$questions questions as due"
