#!/bin/sh
# Writes the license of the programs and, from the kit, those of the libraries that are linked into them.
set -eu
top=$(cd "$(dirname "$0")/.." && pwd)
kit=$(dirname "$(rt doc)")
echo "Format: https://www.debian.org/doc/packaging-manuals/copyright-format/1.0/"
echo "Upstream-Name: Vizdroun"
echo
echo "Files: *"
echo "Copyright: 2026 the Vizdroun maintainers"
echo "License: Apache-2.0 or MIT"
echo " The Apache License, Version 2.0, is in /usr/share/common-licenses/Apache-2.0."
echo " ."
sed 's/^$/./; s/^/ /' "$top/LICENSE-MIT"
sed -n 's/^[a-z][a-z_]*: *//p' "$top/crates.txt" | tr ' ' '\n' | sort -u | while read -r name; do
    for file in "$kit/rattle/$name"/LICENSE-MIT "$kit/rattle/$name"/LICENSE; do
        if [ -f "$file" ]; then
            echo
            echo "Files: usr/bin/* (the library $name, which is linked into them)"
            echo "Copyright: $(grep -m 1 -i '^ *copyright' "$file" | sed 's/^ *[Cc]opyright *//' || echo "its authors")"
            echo "License: MIT ($name)"
            sed 's/^[[:space:]]*$/./; s/^/ /' "$file"
            break
        fi
    done
done
