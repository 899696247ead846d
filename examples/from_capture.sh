#!/usr/bin/env bash
# Takes both sides of a 5250 session out of a packet capture, as hex text: what the host sent goes to host.hex, what the
# station sent to station.hex, and both with their times to session.recording, for `t5250 trace`, in the current folder.
# Those of an earlier run are removed first. Times count from the first byte of data. It needs tshark 4.
#
#     from_capture.sh CAPTURE [STREAM]
#
# STREAM is tshark's number of a TCP connection. Without it the one with 5250 records is taken, on whatever port; where
# there is none, or several, none is taken, and all are listed. The host is the end that was connected to; where the
# capture begins later, it is the end with the lower port number. Where the capture lacks bytes of a side, since a packet
# is lost or was cut, that side's text ends before them, and the recording has no more of it. The status is 0, or 1 where
# bytes are lacking, or 2 where nothing is taken.
set -uo pipefail
# Streams hold passwords: only the files' owner can read them.
umask 077

stop() {
    printf '%s\n' "$@" >&2
    exit 2
}

[ $# -eq 1 ] || [ $# -eq 2 ] || stop "usage: from_capture.sh CAPTURE [STREAM]"
capture=$1
for name in host.hex station.hex session.recording; do
    [ ! "$name" -ef "$capture" ] || stop "$name is a file that this writes: give the capture another name"
    rm -f "$name"
done
command -v tshark >/dev/null || stop "there is no tshark (Debian: apt-get install tshark)"

# packets FILTER: a line for each packet, and `unread` where the capture, which may be cut off at its end, goes wrong.
fields=(
    tcp.stream ip.src ipv6.src tcp.srcport ip.dst ipv6.dst tcp.dstport
    tcp.flags.syn tcp.flags.ack tcp.flags.fin tcp.seq tcp.ack tcp.len frame.time_epoch tcp.payload
)
packets() {
    tshark -r "$capture" -o tcp.analyze_sequence_numbers:TRUE -o tcp.relative_sequence_numbers:TRUE -Y "$1" \
        -T fields -E occurrence=f "${fields[@]/#/-e}" 2>/dev/null || echo unread
}
# What awk makes of such a line. (An older tshark parts a payload's bytes by colons.)
packet='
    !/^[0-9]/ {
        unread = unread || $1 == "unread"
        next
    }
    {
        stream = $1 + 0
        from = ($2 != "" ? $2 : "[" $3 "]") ":" $4
        to = ($5 != "" ? $5 : "[" $6 "]") ":" $7
        syn = $8 ~ /1|True/
        ack = $9 ~ /1|True/
        fin = $10 ~ /1|True/
        data = toupper($15)
        gsub(/:/, "", data)
    }'

# A line for each TCP connection: its number, whether it has records, its host and its station. A packet with SYN tells
# which is which. With records a side has the header of one, whose bytes 12 A0, 00, 00 and 04 (RFC 1205, section 3) may
# have Telnet commands between them, and the command EOR or the option for it. What stands there may cross packets.
connections=$(packets tcp | awk -F '\t' -v telnet='(FF(F[1-9]|F[B-E]..))*' "$packet"'
    BEGIN {
        header = "^(..)*12" telnet "A0" telnet "00" telnet "00" telnet "04"
    }
    {
        if (!(stream in host) || syn) {
            host_is_from = syn ? ack : $4 + 0 < $7 + 0
            host[stream] = host_is_from ? from : to
            station[stream] = host_is_from ? to : from
        }
        data = tail[stream, from] data
        tail[stream, from] = substr(data, length(data) - 63)
        if (data ~ header)
            headed[stream, from] = 1
        if (data ~ /^(..)*FF(EF|F[BD]19)/)
            ended[stream, from] = 1
        if ((stream, from) in headed && (stream, from) in ended)
            records[stream] = 1
        if (stream >= count)
            count = stream + 1
    }
    END {
        for (stream = 0; stream < count; stream++)
            print stream, stream in records ? "yes" : "no", host[stream], station[stream]
        exit unread && !count
    }') || stop "$capture is no capture that can be read"
[ -n "$connections" ] || stop "$capture has no TCP connection"

listed() {
    awk '{ printf "stream %d: %s host, %s station%s\n", $1, $3, $4, ($2 == "yes" ? ", with records" : "") }' <<<"$connections"
}

if [ $# -eq 2 ]; then
    found=$(awk -v stream="$2" '$1 "" == stream' <<<"$connections")
    [ -n "$found" ] || stop "$capture has no TCP connection $2; it has" "$(listed)"
else
    found=$(awk '$2 == "yes"' <<<"$connections")
    [ -n "$found" ] || stop "$capture has no connection with 5250 records; name a stream of these" "$(listed)"
    [ "$(wc -l <<<"$found")" = 1 ] || stop "$capture has several connections with 5250 records; name a stream of these" \
        "$(listed)"
fi
read -r stream _ host station <<<"$found"
echo "stream $stream: $host host, $station station"

# Each side's bytes by their numbers in TCP, from 1 on, or where the capture begins later from the side's first packet on.
# A packet that came too early is kept until the bytes before it have come, and has the time of the packet that brought
# them. What a packet says that it holds, or the other side that it has got, the capture ought to have; a FIN counts as
# one byte more.
packets "tcp.stream == $stream" | awk -F '\t' -v host="$host" "$packet"'
    # Whether a piece has the next byte of its side, which is written then, and those after it.
    function take(side, start, data,    end) {
        end = start + length(data) / 2
        if (start > next_byte[side] || end <= next_byte[side])
            return 0
        data = substr(data, 2 * (next_byte[side] - start) + 1)
        print data > (side ".hex")
        print int(passed / 1000), side, data > "session.recording"
        bytes[side] += length(data) / 2
        next_byte[side] = end
        return 1
    }
    function tell(side,    lacking, piece) {
        if (side in closed && closed[side] < got[side])
            got[side] = closed[side]
        lacking = (got[side] > reach[side] ? got[side] : reach[side]) - next_byte[side]
        for (piece = 1; piece <= kept[side]; piece++)
            if (starts[side, piece] > next_byte[side] && starts[side, piece] - next_byte[side] < lacking)
                lacking = starts[side, piece] - next_byte[side]
        printf "%s.hex: %d bytes", side, bytes[side]
        if (lacking > 0)
            printf "; the capture lacks the next %d, so it ends there", lacking
        print ""
        return lacking > 0
    }
    BEGIN {
        printf "" > "host.hex"
        printf "" > "station.hex"
        printf "" > "session.recording"
        next_byte["host"] = next_byte["station"] = 1
    }
    {
        side = from == host ? "host" : "station"
        other = side == "host" ? "station" : "host"
        # Where the capture begins later, a byte may have a number below 1.
        start = $11 >= 2147483648 ? $11 - 4294967296 : $11 + 0
        end = start + $13
        opened = opened || syn
        if (!(side in begins) && !opened)
            next_byte[side] = start
        begins[side] = 1
        if ($13 > 0 && end > reach[side])
            reach[side] = end
        if (fin)
            closed[side] = end
        if (ack && $12 < 2147483648 && $12 + 0 > got[other])
            got[other] = $12 + 0
        if (data == "")
            next
        microseconds = int($14 * 1000000 + 0.5)
        if (begun == "")
            begun = microseconds
        if (microseconds - begun > passed)
            passed = microseconds - begun
        if (start > next_byte[side]) {
            starts[side, ++kept[side]] = start
            pieces[side, kept[side]] = data
        }
        if (!take(side, start, data))
            next
        for (piece = 1; piece <= kept[side]; piece++)
            if (take(side, starts[side, piece], pieces[side, piece]))
                piece = 0
        if (next_byte[side] >= reach[side])
            kept[side] = 0
    }
    END {
        if (side == "") {
            print "tshark tells nothing of that stream" > "/dev/stderr"
            exit 2
        }
        exit tell("host") + tell("station") > 0
    }'
# tshark's own status is bad where the capture is cut off.
exit "${PIPESTATUS[1]}"
