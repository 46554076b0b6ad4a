# Movements: a line for each aircraft once it has left the table, or at the end of the input if it is still there. A line has the
# times when the aircraft was first and last heard, its address and its flight.
#
#     nc -w 130 127.0.0.1 30002 < /dev/null | (trap '' INT
#         ./groundstation run --every 1000 --format json /dev/stdin |
#             jq -nr --unbuffered -f examples/movements.jq >> movements.tsv)
foreach (inputs, {aircraft: []}) as $table ({};
    INDEX($table.aircraft[]; .hex) as $here
    | {gone: [.seen[]? | select($here[.hex] | not)],
       seen: (.seen as $was | $here | map_values(($table.now - .seen) as $heard
           | {first: ($was[.hex].first // $heard), last: $heard, hex, flight: (.flight // $was[.hex].flight)}))};
    .gone[] | [(.first, .last | floor | todate), .hex, .flight // "-"] | @tsv)
