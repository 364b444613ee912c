# Read by the scripts of this folder that give commands to the transcript: builds crates/b2_transcript, and goes to an empty folder that
# is removed at the end. The transcript's own run there may fail, since it has no commands.
top=$(cd "$(dirname "$0")/.." && pwd)
(cd "$top/crates/b2_transcript" && rt run </dev/null >/dev/null 2>&1) || true
program=$top/crates/b2_transcript/out/b2_transcript
[ -x "$program" ] || { echo "b2_transcript is not proved or not built" >&2; exit 1; }
work=$(mktemp -d)
trap 'rm -rf "$work"' EXIT
cd "$work"
