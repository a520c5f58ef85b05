#!/bin/bash
# build.sh SOURCES [TARGET]
#   SOURCES  folder with the published files, laid out as parser.rs, parser/*.rs, lexer/token.rs.
#   TARGET   build folder (or env ORACLE_BUILD). Default a folder oracle-build in the system's temporary folder
# Makes TARGET/oracle    the published parser, its files unchanged
#       TARGET/oracle01  a copy with 01-scope.md's own answers put in by patch01.sh
set -euo pipefail
here=$(cd "$(dirname "${BASH_SOURCE[0]}")" && pwd)
sources=${1:?build.sh: name the folder of the published files}
target=${2:-${ORACLE_BUILD:-${TMPDIR:-$(dirname "$(mktemp -u)")}/oracle-build}}
mkdir -p "$target"
target=$(cd "$target" && pwd)

# find SOURCES' own name for a path of the repository
source_of() {
    if [ -f "$sources/${1#src/}" ]; then echo "$sources/${1#src/}"
    else echo "build.sh: $1 is not in $sources" >&2; exit 1
    fi
}

published="src/parser.rs src/parser/errors.rs src/parser/expr.rs src/parser/fundefs.rs
    src/parser/operator.rs src/parser/pattern.rs src/parser/primary.rs src/parser/stmt.rs
    src/lexer/token.rs"

lay_out() { # lay_out FOLDER
    rm -rf "$1/src"
    mkdir -p "$1/src/parser" "$1/src/lexer"
    for path in $published; do
        cp "$(source_of "$path")" "$1/$path"
        chmod u+w "$1/$path"
    done
    for shim in main debug dump kinds language lexer limits numbers runtime sheet utils; do
        cp "$here/src/$shim.rs" "$1/src/$shim.rs"
    done
    cp "$here/src/parser_tests.rs" "$1/src/parser/tests.rs"
}

compile() { # compile FOLDER BINARY
    (cd "$1" && rustc --edition 2021 -O -C panic=unwind -A warnings --crate-name oracle \
        --extern log="$target/liblog.rlib" -o "$target/$2" src/main.rs)
}

rustc --edition 2021 -O --crate-type rlib --crate-name log -o "$target/liblog.rlib" "$here/shim/log.rs"

lay_out "$target/published"
for path in $published; do cmp "$(source_of "$path")" "$target/published/$path"; done
compile "$target/published" oracle

# The token kinds are the places in the published enum.
awk '/pub enum Token/{on=1; next} on && /^}/{exit} on {sub(/\/\/.*/, ""); gsub(/\([A-Za-z]*\)/, ""); gsub(/[ \t\r]/, "");
     n=split($0, names, ","); for (i=1; i<=n; i++) if (names[i] != "") print k++, names[i]}' \
    "$target/published/src/lexer/token.rs" > "$target/tokens.published"
"$target/oracle" --tokens | cut -d' ' -f1,2 > "$target/tokens.oracle"
cmp "$target/tokens.published" "$target/tokens.oracle"

# Every message that the published parser writes out whole is in the table of numbers.
grep -oP '(Err\(|ParserError::from\()\K"([^"\\]|\\.)*"(?=(\.into\(\))?\))' "$target/published/src/parser.rs" | sort -u |
while IFS= read -r text; do
    grep -qF -- "($text, " "$here/src/numbers.rs" || { echo "build.sh: no number for $text" >&2; exit 1; }
done

lay_out "$target/patched"
"$here/patch01.sh" "$target/patched/src/parser.rs"
compile "$target/patched" oracle01
ls -l "$target"/oracle*
