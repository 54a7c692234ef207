#!/bin/sh
# Installs isp below a folder, and needs nothing but this one.
#
#     ./install.sh [PREFIX]       PREFIX is .local at home where it is left out
#
# PREFIX/share/isp/installed names what was installed. PREFIX/share/isp/uninstall.sh removes that again.
set -eu
from=$(CDPATH='' cd -- "$(dirname -- "$0")" && pwd)
to=${1:-$HOME/.local}
list=$to/share/isp/installed
case $to in
/*) ;;
*) to=$PWD/$to && list=$to/share/isp/installed ;;
esac
[ ! -f "$list" ] || "$from/uninstall.sh" "$to"

# a folder that is made here is removed again
made=''
[ -d "$to" ] || made='.
'
mkdir -p -- "$to"
cd "$from/files"
for folder in $(find . -type d ! -name . | sort); do
    [ -d "$to/$folder" ] || made="$made$folder
"
    mkdir -p -- "$to/$folder"
done
find . ! -type d | sort | while read -r file; do
    rm -f -- "$to/$file"
    cp -P -- "$file" "$to/$file"
done
{
    find . ! -type d | sort | sed 's/^/file /'
    printf '%s' "$made" | sort -r | sed 's/^/folder /'
} >"$list"

echo "isp is installed in $to/bin"
case :$PATH: in
*:"$to/bin":*) ;;
*) echo "PATH does not name that folder yet" ;;
esac
echo "for Python, PYTHONPATH has to name $to/lib/isp/python"
echo "\"$to/share/isp/uninstall.sh\" removes it"
