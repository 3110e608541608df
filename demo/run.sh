#!/usr/bin/env bash
# A film, an origin and a page that plays it: makes a film with ffmpeg, starts vodpack and nginx on the loopback, and prints the
# address of the page. Ends with Ctrl-C.
#
# usage: demo/run.sh [PROGRAM [PORT]]    PROGRAM is the built vodpack, by default crates/vodpack/out/vodpack; PORT is 8080
set -eu
cd "$(dirname "$0")/.."
program=$(realpath "${1:-crates/vodpack/out/vodpack}")
port=${2:-8080}
folder=$(mktemp -d)
trap 'kill $(jobs -p) 2>/dev/null || true; rm -rf "$folder"' EXIT
chmod 755 "$folder"
mkdir "$folder/films"
ffmpeg -v error -f lavfi -i testsrc2=size=640x360:rate=25:duration=20 -f lavfi -i sine=frequency=440:sample_rate=48000:duration=20 \
    -c:v libx264 -preset veryfast -g 50 -pix_fmt yuv420p -c:a aac -ac 2 -shortest "$folder/films/film.mp4"
cat >"$folder/films/joined.json" <<'MAPPING'
{"durations": [6000, 8000], "sequences": [{"clips": [
  {"type": "source", "path": "/film.mp4", "clipFrom": 2000}, {"type": "source", "path": "/film.mp4", "clipFrom": 10000}]}]}
MAPPING
# nginx asks by HTTP/1.0, so each request is a connection.
"$program" serve "$folder/films" - "127.0.0.1:$((port + 1))" 4294967295 &
"$program" serve "$folder/films" - "127.0.0.1:$((port + 2))" 4294967295 &
sed -e "s/127.0.0.1:8101/127.0.0.1:$((port + 1))/" -e "s/127.0.0.1:8102/127.0.0.1:$((port + 2))/" -e "s/127.0.0.1:8080/127.0.0.1:$port/" \
    -e "s|^http {|http { access_log $folder/access.log; types { text/html html; text/javascript js; }|" \
    -e "s|location / {|location /demo/ { root $PWD; }\n        location / {|" docs/operating/nginx.conf >"$folder/nginx.conf"
echo "http://127.0.0.1:$port/demo/index.html"
"$(command -v nginx || echo /usr/sbin/nginx)" -p "$folder" -e "$folder/error.log" -c "$folder/nginx.conf" -g "daemon off; pid $folder/pid;"
