#!/bin/sh
# Removes what install.sh installed, and the folders that it made, where nothing else has come into them.
#
#     uninstall.sh [PREFIX]       PREFIX is the one of this script where it is left out
set -eu
to=${1:-$(CDPATH='' cd -- "$(dirname -- "$0")/../.." && pwd)}
list=$to/share/isp/installed
[ -f "$list" ] || { echo "uninstall.sh: there is no $list, so nothing was installed here" >&2; exit 1; }

names=$(cat -- "$list")
cd -- "$to"
# (Python has left what it compiled)
find lib/isp/python -type d -name __pycache__ -prune -exec rm -r {} +
rm -f -- share/isp/installed
echo "$names" | while read -r kind name; do
    case $kind in
    file) rm -f -- "$name" ;;
    folder) [ "$name" = . ] || rmdir -- "$name" 2>/dev/null || : ;;
    esac
done
case $names in
*"folder ."*) cd / && rmdir -- "$to" 2>/dev/null || : ;;
esac
echo "isp is removed from $to"
