# Sourced by the tools that are in python/robus, with the tool's word in $word: runs it, if python3 is new enough.
version=$(python3 -IS -c 'import sys; print("%d.%d" % sys.version_info[:2])' < /dev/null 2> /dev/null) || version=missing
case $version in
    3.1[1-9] | 3.[2-9][0-9]) ;;
    *) echo "tools/${0##*/}: needs Python 3.11 or newer; python3 is ${version:-missing}" >&2; exit 70 ;;
esac
[ ! -d /dev/stdin ] || { echo "tools/${0##*/}: standard input is a folder" >&2; exit 5; }
PYTHONDONTWRITEBYTECODE=1 exec python3 "$(dirname "$0")/../python/start.py" "$word" "$@"
