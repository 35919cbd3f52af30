#!/bin/sh
# Nothing is installed without a word (tools/need.sh): with an apt-get, a sudo and an id that only pretend, what would be done is said before either is called;
# where one of them is missing, nothing is done.
cd "$(dirname "$0")/.." || exit 1
room=$(mktemp -d) || exit 1
trap 'rm -rf "$room"' EXIT
trap 'exit 130' INT TERM HUP
for c in sh sed wc env; do ln -s "$(command -v $c)" "$room/$c"; done
pretend() { printf '#!/bin/sh\n%s\n' "$2" >"$room/$1" && chmod +x "$room/$1"; }
n=0
# hears STATUS WANTED: what is said and done, line by line
hears() {
  said=$(PATH=$room /bin/sh tools/need.sh nosuchcommand one two 2>&1 </dev/null)
  status=$?
  [ "$said" = "$2" ] && [ "$status" = "$1" ] || { echo "status $status, and not $1; said:"; echo "$said"; echo "wanted:"; echo "$2"; exit 1; }
  n=$((n + 1))
}
pretend id 'echo 1000'
hears 1 'nosuchcommand is not on this machine, and neither is apt-get: install what Debian calls one two, and try again'
pretend apt-get 'case "$*" in "install -s one two") echo "Inst one (1.0)"; echo "Inst three (3.0)"; echo "Conf one" ;; *) echo "DONE apt-get $*" ;; esac'
hears 1 'nosuchcommand is not on this machine. To be done now, by sudo:
  apt-get update
  apt-get install one two
  which installs 2 packages: one three
there is no sudo here: do it as root, and try again'
pretend sudo 'echo "ASKED sudo $1"; exec "$@"'
hears 0 'nosuchcommand is not on this machine. To be done now, by sudo:
  apt-get update
  apt-get install one two
  which installs 2 packages: one three
ASKED sudo apt-get
DONE apt-get update -qq
ASKED sudo env
DONE apt-get install -y -qq one two'
pretend id 'echo 0'
hears 0 'nosuchcommand is not on this machine. To be done now:
  apt-get update
  apt-get install one two
  which installs 2 packages: one three
DONE apt-get update -qq
DONE apt-get install -y -qq one two'
pretend nosuchcommand :
hears 0 ''
echo "what apt-get would do is said first, in each of $n cases"
