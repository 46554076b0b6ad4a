# Counts an hour: the hour, how many aircraft were heard in it, and the most at once. A table each minute misses none, as each
# aircraft stays for a minute.
#
#     ./groundstation run --every 60000 --tick 1000 --format json PATH > day.json
#     jq -nr -f examples/hours.jq day.json
reduce inputs as $table ({}; ($table.now / 3600 | floor | . * 3600 | todate) as $hour
    | .[$hour].heard[$table.aircraft[].hex] = 1
    | .[$hour].most |= ([., ($table.aircraft | length)] | max))
| to_entries[] | [.key, (.value.heard | length), .value.most] | @tsv
