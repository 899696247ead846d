# The host of examples/inquiry.serve, at which scrape.sh and scrape_python.sh have a scraper ask for an item; both source
# this. `folder` is theirs too, and goes at the end.
set -uo pipefail
examples=$(cd "$(dirname "${BASH_SOURCE[0]}")/../../examples" && pwd) || exit 2
folder=$(mktemp -d) || exit 2
trap 'rm -rf "$folder"' EXIT

# begin_inquiry PROGRAM: t5250 listens, at the port `port`.
begin_inquiry() {
    "$1" serve --wait 60 127.0.0.1:0 "$examples/inquiry.serve" >"$folder/served" &
    host=$!
    for _ in $(seq 1200); do
        grep -qs listening "$folder/served" && break
        sleep 0.05
    done
    port=$(sed -n '1s/.*://p' "$folder/served")
}

# end_inquiry LINE SCRAPER..: the scraper prints this line, and the host is told what examples/inquiry.served has.
end_inquiry() {
    "${@:2}" >"$folder/printed" || { kill "$host"; exit 1; }
    wait "$host" || exit 1
    diff "$folder/printed" <(echo "$1") && diff <(tail -n +2 "$folder/served") "$examples/inquiry.served"
}
