#!/usr/bin/env bash
# Runs the lines on rotas of README.md, and compares what the program prints with what stands there: by the proved program where
# it was built, else by the one that is built unproved.
set -eu
cd "$(dirname "$0")/.."
folder=$(mktemp -d)
trap 'rm -rf "$folder"' EXIT
rota=$(python3 -B tools/programs.py rota)

"$rota" lines data/rotas ward lasts 2024-02-28T06:00:00 postgres > "$folder/printed"
"$rota" clashes data/rotas ward lasts 2024-02-28T06:00:00 drill lasts 2024-02-28T21:30:00 >> "$folder/printed"
cat "$folder/printed"
diff - "$folder/printed" << 'END'
0	2024-02-28 06:00:00	08:00:00
1	2024-02-28 14:00:00	08:00:00
2	2024-02-28 22:00:00	08:00:00
3	2024-02-29 06:00:00	12:00:00
4	2024-02-29 18:00:00	12:00:00
end	2024-03-01 06:00:00	48:00:00
1 0
2 0
END
echo "The rotas are those of README.md."
