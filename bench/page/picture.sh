#!/bin/sh
# picture.sh PAGE PICTURE [WIDTH [HEIGHT]]: what a browser shows of a page, for people who change its looks. It stands
# outside the gate, and needs a headless Chromium (`apt-get install chromium`). 390 is the width of a telephone.
set -eu
page=$(realpath "$1")
picture=$2
width=${3:-1000}
height=${4:-1400}
home=$(mktemp -d)
trap 'rm -rf "$home"' EXIT
chromium --headless=new --no-sandbox --disable-gpu --hide-scrollbars --user-data-dir="$home" \
    --window-size="$width,$height" --screenshot="$home/picture.png" "file://$page" >/dev/null 2>&1
mv "$home/picture.png" "$picture"
