#!/bin/sh
# need.sh COMMAND PACKAGE..: where the command is missing, says what would be installed and how, and only then installs Debian's packages: as root at once,
# else by sudo, which asks for itself. Where there is no apt-get or no sudo it says what is missing, and fails.
command -v "$1" >/dev/null 2>&1 && exit 0
# apt-get doesn't wait for another of its kind: of several at a time the first installs, and the others find it done
if command -v flock >/dev/null 2>&1; then
  exec 9<"$0" && flock 9
  command -v "$1" >/dev/null 2>&1 && exit 0
fi
command=$1
shift
if ! command -v apt-get >/dev/null 2>&1; then
  echo "$command is not on this machine, and neither is apt-get: install what Debian calls $*, and try again" >&2
  exit 1
fi
as=
[ "$(id -u)" = 0 ] || as=sudo
{
  echo "$command is not on this machine. To be done now${as:+, by sudo}:"
  echo "  apt-get update"
  echo "  apt-get install $*"
  new=$(apt-get install -s "$@" 2>/dev/null | sed -n 's/^Inst \([^ ]*\).*/\1/p')
  [ -z "$new" ] || echo "  which installs $(($(echo "$new" | wc -l))) packages:" $new
} >&2
if [ -n "$as" ] && ! command -v sudo >/dev/null 2>&1; then
  echo "there is no sudo here: do it as root, and try again" >&2
  exit 1
fi
{ $as apt-get update -qq && $as env DEBIAN_FRONTEND=noninteractive apt-get install -y -qq "$@"; } >&2
