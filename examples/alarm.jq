# An alarm: a line for each aircraft that begins to squawk 7500, 7600 or 7700, or to send an emergency without such a squawk.
#
#     ./groundstation run --every 1000 --format json PATH | jq -nr --unbuffered -f examples/alarm.jq
foreach inputs as $table ({};
    {was: .is, is: [$table.aircraft[] | {hex, flight, says: (.emergency // (.squawk | select(IN("7500", "7600", "7700"))))}]};
    .was as $was | .is[] | select(.hex | IN($was[]?.hex) | not)
    | "\($table.now | floor | todate) \(.hex) \(.flight // "-") \(.says)")
