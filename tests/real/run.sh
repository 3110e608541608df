#!/bin/sh
# Plays real films: asks vodpack for the segments of films that ffmpeg encodes, joins them, and compares what ffmpeg decodes
# of that, and the times of its packets, to the films themselves. Fragments are joined behind their initialization segment,
# transport streams as they are, and both are played by ffmpeg's own HLS reader from a folder that holds the playlist and
# what it names. Counters of packets begin anew with each transport stream, which ffmpeg tells where streams are joined.
#
# usage: tests/real/run.sh [PROGRAM]
#
# PROGRAM is the built vodpack, by default crates/vodpack/out/vodpack. Edit lists are honoured on both sides, and ignored on
# both with settings that say so. Where they are honoured, the encoder's first frame of audio is cut off: then the packets of
# audio are compared, since its decoder goes on from what it had. A time may differ by the unit of 1/90000 second that output
# times are rounded down to. Where there is no ffmpeg with libx264 and aac, nothing is done and the status is 0; films of HEVC
# are left out without libx265. Else the status is 0 where all passed.
set -u
here=$(cd "$(dirname "$0")" && pwd)
program=${1:-$here/../../crates/vodpack/out/vodpack}

for tool in ffmpeg ffprobe; do
    if ! command -v "$tool" >/dev/null 2>&1; then
        echo "skipped: there is no $tool"
        exit 0
    fi
done
for encoder in libx264 aac; do
    if ! ffmpeg -hide_banner -encoders 2>/dev/null | grep -q " $encoder "; then
        echo "skipped: ffmpeg has no encoder $encoder"
        exit 0
    fi
done
if [ ! -x "$program" ]; then
    echo "there is no program $program: build it with rt run in crates/vodpack, or name it"
    exit 2
fi
program=$(cd "$(dirname "$program")" && pwd)/$(basename "$program")

folder=$(mktemp -d)
trap 'rm -rf "$folder"' EXIT
trap 'exit 130' INT TERM
cd "$folder" || exit 2
passed=0
failed=0

# result STATUS TEXT: counts a case and prints its line.
result() {
    if [ "$1" -eq 0 ]; then
        passed=$((passed + 1))
        echo "ok      $2"
    else
        failed=$((failed + 1))
        echo "FAILED  $2"
    fi
}

# encode FILE ARGUMENTS..: makes a film.
encode() {
    file=$1
    shift
    ffmpeg -nostdin -v error -y "$@" "$file" || {
        echo "ffmpeg can't make $file"
        exit 2
    }
}

# got SETTINGS PATH FILE: asks for a path; what was refused stands in `refusal`.
got() {
    "$program" get . "$1" "$2" >"$3" 2>refusal
}

# segments TARGET NAME SETTINGS FILE: joins the segments of all numbers, up to refusal 40. NAME has a `%` for the number.
segments() {
    number=1
    while [ "$number" -lt 1000 ]; do
        got "$3" "$1/$(echo "$2" | sed "s/%/$number/")" segment
        case "$? $(cat refusal)" in
        "0 ") cat segment >>"$4" ;;
        "2 refused 41 EmptySegment") ;;
        "2 refused 40 NoSegment") return 0 ;;
        *)
            echo "        segment $number: $(cat refusal)"
            return 1
            ;;
        esac
        number=$((number + 1))
    done
    return 1
}

# joined TARGET TRACKS SETTINGS FILE: writes the initialization segment of part 1 and all fragments.
joined() {
    if ! got "$3" "$1/init-c1-f1-$2.mp4" "$4"; then
        echo "        init: $(cat refusal)"
        return 1
    fi
    segments "$1" "fragment-%-f1-$2.m4s" "$3" "$4"
}

# packaged TARGET TRACKS SETTINGS FOLDER: the media playlist and each file that it names.
packaged() {
    rm -rf "$4"
    mkdir "$4"
    got "$3" "$1/index-f1-$2.m3u8" "$4/index.m3u8" || return 1
    for name in $(sed -n 's/^#EXT-X-MAP:URI="\(.*\)"/\1/p; /^[^#]/p' "$4/index.m3u8"); do
        [ -e "$4/$name" ] || got "$3" "$1/$name" "$4/$name" || return 1
    done
}

# ignores SETTINGS: whether edit lists are ignored.
ignores() {
    [ "$1" != - ] && grep -q ignore_edits "$1"
}

# of_film SETTINGS: how ffmpeg reads the film.
of_film() {
    ignores "$1" && echo "-ignore_editlist 1"
}

# checksums FILE v|a OPTIONS..: runs ffmpeg on a file and prints the checksum of each frame or packet, a line each. A message is a
# line too, but for that of the counters.
checksums() {
    file=$1
    stream=$2
    options=$3
    shift 3
    # shellcheck disable=SC2086
    ffmpeg -nostdin -v error $options -i "$file" -map "0:$stream:0" "$@" -f framehash -hash md5 - 2>messages |
        awk -F ', *' '!/^#/ { print $6 }'
    if grep -v -e 'corrupt input packet' messages >shown; then
        sed 's/^/        /' shown >&2
        echo "messages"
    fi
}

# frames FILE v|a OPTIONS: the checksum of each decoded frame.
frames() {
    checksums "$1" "$2" "$3" -fps_mode passthrough
}

# packets FILE OPTIONS: the checksum of each packet of audio, without an ADTS header.
packets() {
    checksums "$1" a "$2" -c copy -bsf:a aac_adtstoasc
}

# clock FILE v|a OPTIONS..: presentation and decode time of each packet, a line each.
clock() {
    file=$1
    stream=$2
    shift 2
    ffprobe -v error "$@" -select_streams "$stream:0" -show_entries packet=pts_time,dts_time -of csv=p=0 "$file" |
        sed 's/,*$//' | grep .
}

# near WANT HAVE DECODED: both files have as many times, and each presentation time is as far from the first as the film's, but
# for less than two units and the last printed digit; where DECODED is 1, times are compared as they are, decode times too.
near() {
    [ -s "$1" ] && [ "$(wc -l <"$1")" -eq "$(wc -l <"$2")" ] && paste -d, "$1" "$2" | awk -F, -v decoded="$3" '
        NR == 1 && !decoded { later = $3 - $1 }
        { p = $1 + later - $3; d = $2 - $4; if (p < -2.5e-5 || p > 2.5e-5 || (decoded && (d < -1.2e-6 || d > 1.35e-5))) bad++ }
        END { exit bad > 0 }'
}

# reading FILE: how ffmpeg reads a playlist.
reading() {
    case $1 in *.m3u8) echo "-allowed_extensions ALL" ;; esac
}

# compared FILM FILE TRACKS SETTINGS: whether a file plays as the film does; what was seen stands in `seen`.
compared() {
    seen=
    wrong=0
    for kind in v a; do
        case $3 in *"$kind"1*) ;; *) continue ;; esac
        if [ "$kind" = a ] && ! ignores "$4"; then
            packets "$1" "-ignore_editlist 1" | sed 1d >want
            packets "$2" "$(reading "$2")" >have
        else
            frames "$1" "$kind" "$(of_film "$4")" >want
            frames "$2" "$kind" "$(reading "$2")" >have
        fi
        [ -s want ] && cmp -s want have || wrong=1
        seen="$seen $kind $(wc -l <have | tr -d ' ')"
    done
    return "$wrong"
}

# whole FILM TRACKS SETTINGS: the joined fragments play as the film does, at its times.
whole() {
    if ! joined "/local/dash/$1" "$2" "$3" joined.mp4; then
        result 1 "$1 $2 $3"
        return
    fi
    status=0
    compared "$1" joined.mp4 "$2" "$3" || status=1
    if ignores "$3"; then
        for kind in v a; do
            case $2 in *"$kind"1*) ;; *) continue ;; esac
            clock "$1" "$kind" -ignore_editlist 1 >want
            clock joined.mp4 "$kind" >have
            near want have 1 || status=1
        done
    else
        case $2 in
        *v1*)
            clock "$1" v >want
            clock joined.mp4 v >have
            near want have 0 || status=1
            ;;
        esac
    fi
    result "$status" "$1 $2 $3: fragments, frames$seen"
}

# streamed FILM TRACKS SETTINGS: the joined transport streams play as the film does, a second later, and no packet of a
# segment is lost.
streamed() {
    : >joined.ts
    if ! segments "/local/hls/$1" "seg-%-f1-$2.ts" "$3" joined.ts; then
        result 1 "$1 $2 $3"
        return
    fi
    status=0
    compared "$1" joined.ts "$2" "$3" || status=1
    case $2 in
    *v1*)
        # shellcheck disable=SC2046
        clock "$1" v $(of_film "$3") >want
        clock joined.ts v >have
        near want have 0 || status=1
        ;;
    esac
    got "$3" "/local/hls/$1/seg-1-f1-$2.ts" segment.ts
    ffmpeg -nostdin -v warning -i segment.ts -c copy -f null - 2>&1 | grep -q -i "continuity" && status=1
    result "$status" "$1 $2 $3: transport streams, frames$seen"
}

# played FILM TRACKS SETTINGS: ffmpeg's HLS reader plays the folder as the film.
played() {
    if ! packaged "/local/hls/$1" "$2" "$3" package; then
        result 1 "$1 $2 $3: $(cat refusal)"
        return
    fi
    status=0
    compared "$1" package/index.m3u8 "$2" "$3" || status=1
    result "$status" "$1 $2 $3: media playlist of $(grep -c EXTINF package/index.m3u8) segments, frames$seen"
}

# counted MAPPING TRACKS V A: the joined segments have so many frames, and no message of the decoder.
counted() {
    if ! joined "/mapped/dash/$1" "$2" ignored.json joined.mp4; then
        result 1 "$1 $2"
        return
    fi
    video=0
    audio=0
    case $2 in *v1*) video=$(frames joined.mp4 v "" | wc -l) ;; esac
    case $2 in *a1*) audio=$(frames joined.mp4 a "" | wc -l) ;; esac
    [ "$video" -eq "$3" ] && [ "$audio" -eq "$4" ]
    result $? "$1 $2: frames v $video of $3, a $audio of $4"
}

# Pictures with frames out of order and a movie box at the end; the two tracks stand in many chunks by turns.
encode order.mp4 -f lavfi -i testsrc2=size=160x90:rate=25:duration=33 \
    -f lavfi -i "sine=frequency=440:sample_rate=48000:duration=33" \
    -c:v libx264 -preset fast -bf 3 -g 50 -pix_fmt yuv420p -c:a aac -b:a 64k -ac 2
# 30000/1001 pictures a second and audio at 44100, with the movie box in front.
encode ntsc.mp4 -f lavfi -i testsrc2=size=176x144:rate=30000/1001:duration=25 \
    -f lavfi -i "sine=frequency=300:sample_rate=44100:duration=26" \
    -c:v libx264 -preset fast -bf 2 -g 60 -pix_fmt yuv420p -c:a aac -b:a 48k -ac 1 -movflags +faststart
# Pictures in order with a sync sample every 4 seconds, and no audio.
encode plain.mp4 -f lavfi -i testsrc=size=128x96:rate=24:duration=21 \
    -c:v libx264 -preset fast -bf 0 -g 96 -keyint_min 96 -sc_threshold 0 -pix_fmt yuv420p
# Audio alone.
encode tone.m4a -f lavfi -i "sine=frequency=500:sample_rate=44100:duration=31" -c:a aac -b:a 64k -ac 2
# Two films of the same codec parameters.
for film in one two; do
    encode "$film.mp4" -f lavfi -i "testsrc2=size=160x90:rate=25:duration=15" \
        -f lavfi -i "sine=frequency=440:sample_rate=48000:duration=15" \
        -c:v libx264 -preset fast -bf 2 -g 25 -keyint_min 25 -sc_threshold 0 -pix_fmt yuv420p -c:a aac -b:a 64k -ac 2
done
if ffmpeg -hide_banner -encoders 2>/dev/null | grep -q " libx265 "; then
    # HEVC with frames out of order.
    encode high.mp4 -f lavfi -i testsrc2=size=160x96:rate=25:duration=22 \
        -f lavfi -i "sine=frequency=440:sample_rate=48000:duration=22" \
        -c:v libx265 -preset ultrafast -x265-params log-level=error:keyint=50:bframes=3 -pix_fmt yuv420p -tag:v hvc1 \
        -c:a aac -b:a 64k -ac 2
fi
echo '{"align":true}' >align.json
echo '{"ignore_edits":true}' >ignored.json
echo '{"segment_ms":3000,"policy":"last_rounded","bootstrap":[1000,2000]}' >start.json
echo '{"hls_fmp4":true}' >fmp4.json
clips='"clips":[{"path":"one.mp4"},{"path":"two.mp4","clipFrom":2000}]'
echo "{\"durations\":[12000,9000],\"discontinuity\":false,\"sequences\":[{$clips}]}" >joined.json
echo "{\"durations\":[12000,9000],\"sequences\":[{$clips}]}" >parts.json

for film in order.mp4 ntsc.mp4; do
    for tracks in v1 a1 v1-a1; do
        for settings in - align.json start.json ignored.json; do
            whole "$film" "$tracks" "$settings"
        done
        for settings in align.json ignored.json; do
            streamed "$film" "$tracks" "$settings"
        done
        for settings in - fmp4.json; do
            played "$film" "$tracks" "$settings"
        done
    done
done
whole plain.mp4 v1 -
whole plain.mp4 v1 align.json
streamed plain.mp4 v1 -
whole tone.m4a a1 -
whole tone.m4a a1 start.json
streamed tone.m4a a1 -
if [ -e high.mp4 ]; then
    whole high.mp4 v1-a1 -
    whole high.mp4 v1 ignored.json
    streamed high.mp4 v1-a1 align.json
    played high.mp4 v1 fmp4.json
fi

# 12 seconds of one film and 9 of another, from second 2 on: 300 and 225 pictures. Of audio the samples with i * 1024 / 48000
# below 12 are 563, and those from 2 and below 11 are 516 - 94, where it leads or where the lead begins at 2.
counted joined.json v1 525 0
counted joined.json a1 0 985
counted joined.json v1-a1 525 985
counted parts.json v1-a1 525 985

echo "$passed passed, $failed failed"
[ "$failed" -eq 0 ]
