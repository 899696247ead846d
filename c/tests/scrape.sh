#!/usr/bin/env bash
# The scraper of c/examples at a live host, `t5250 serve` of examples/inquiry.serve: it prints the price's row, and the
# host is told what examples/inquiry.served has.
#
#     scrape.sh SCRAPE PROGRAM        PROGRAM is t5250
source "$(dirname "$0")/inquiry.sh" || exit 2
begin_inquiry "$2"
end_inquiry " Price  . . . .   12.50" "$1" 127.0.0.1 "$port" 4711
