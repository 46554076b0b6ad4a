# Landings and take-offs: a line for each, with the time, what it is, the address and the flight. An aircraft landed where it was
# seen in the air and is then seen on the ground, however long after. Where it parked before is no landing.
#
#     nc -w 130 127.0.0.1 30002 < /dev/null | (trap '' INT
#         ./groundstation run --every 1000 --at LAT,LON --format json /dev/stdin |
#             jq -nr --unbuffered -f examples/landings.jq >> landings.tsv)
foreach inputs as $table ({};
    .changes = []
    | reduce ($table.aircraft[] | select(.alt_baro)) as $craft (.;
        (if $craft.alt_baro == "ground" then "landed" else "took off" end) as $is
        | .was[$craft.hex] as $was
        | .was[$craft.hex] = $is
        | .flight[$craft.hex] = ($craft.flight // .flight[$craft.hex])
        | if $was != null and $was != $is then .changes += [[$is, $craft.hex, .flight[$craft.hex] // "-"]] else . end);
    .changes[] | [($table.now | floor | todate)] + . | @tsv)
