#!/bin/sh
# Tries the misuses of open and closed rosters that must not compile, each in a copy of the repository.
# Run it from the repository's root. It ends with status 0 if every misuse is refused by the compiler.
set -eu
bad=0
try() {
    name=$1 old=$2 new=$3 want=$4
    copy=$(mktemp -d)
    mkdir "$copy/repository"
    tar --exclude=out --exclude=.git -cf - . | tar -C "$copy/repository" -xf -
    file="$copy/repository/crates/volume_compiler/src/shelf.rt"
    OLD=$old NEW=$new awk '{ i = index($0, ENVIRON["OLD"]); if (i) print ENVIRON["NEW"]; else print }' "$file" > "$copy/edited"
    cp "$copy/edited" "$file"
    if (cd "$copy/repository/crates/volume_compiler" && rt try) > "$copy/log" 2>&1; then
        echo "$name: COMPILED"
        bad=1
    elif grep -q -- "$want" "$copy/log"; then
        echo "$name: refused: $(grep -m 1 -- "$want" "$copy/log" | sed 's/.*error/error/' | cut -c 1-160)"
    else
        echo "$name: failed for another reason:"
        tail -n 20 "$copy/log"
        bad=1
    fi
    rm -rf "$copy"
}
closed='    println!(rt; "the roster is closed")?;'
empty='table::table::View { head: table::extent::Head::default(), slots: &[] }'
try 'adding to a closed roster' '    Ok(open.close())' '    let mut shut = open.close(); shut.add_device(8, 32, 4096)?; Ok(shut)' 'the method `add_device` takes'
try 'resolving under an open roster' "$closed" '    open.resolve(roster::target::Target::Zero)?;' 'the method `resolve` takes'
try 'editing under an open roster' "$closed" "    open.cut(&mut $empty, 0)?;" 'the method `cut` takes'
try 'printing under an open roster' "$closed" "    let _ = text::print::print(&open, &$empty, &mut [0u8; 4]);" 'mismatched-types'
exit $bad
