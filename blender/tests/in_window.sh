#!/bin/sh
# in_window.sh ADDON.zip PICTURES: tries the add-on in a window of Blender on a screen in memory, by events, and leaves
# pictures of what is seen in a folder.
here=$(cd "$(dirname "$0")" && pwd)
mkdir -p "$2" || exit 1
said=$2/said.txt
xvfb=
trap '[ -z "$xvfb" ] || kill "$xvfb" 2>/dev/null' EXIT
number=$((90 + $$ % 400))
Xvfb ":$number" -screen 0 1280x800x24 >/dev/null 2>&1 &
xvfb=$!
waited=0
while [ ! -S "/tmp/.X11-unix/X$number" ] && [ "$waited" -lt 100 ]; do
    sleep 0.1
    waited=$((waited + 1))
done
DISPLAY=:$number LIBGL_ALWAYS_SOFTWARE=1 timeout 900 blender --factory-startup --enable-event-simulate \
    --python-exit-code 1 --window-geometry 0 0 1280 800 -P "$here/in_window.py" -- "$1" "$2" >"$said" 2>&1
status=$?
[ "$status" -eq 0 ] && grep -q '^window: done' "$said" || { cat "$said" >&2; exit 1; }
echo "$(grep -c '^window: ' "$said") things hold in a window"
