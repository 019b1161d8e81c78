#!/usr/bin/env bash
# Tries the script `paclab` on a copy of the sources where nothing is built: what it prints, its status, and how often the kit
# is called to compile. It takes two to four minutes. Usage: tools/paclab-cases.sh
set -u
top=$(cd "$(dirname "${BASH_SOURCE[0]}")/.." && pwd)
work=$(mktemp -d)
trap 'rm -rf -- "$work"' EXIT
copy=$work/tree
failed=0

mkdir -p "$copy" "$work/bin" "$work/links" "$work/here/below" "$work/no kit"
(cd "$top" && tar c --exclude=out paclab crates.txt crates examples) | tar x -C "$copy"
ln -s "$copy/paclab" "$work/links/paclab"
cp "$copy/examples/hello.c" "$work/here/x.c"
cp "$copy/examples/hello.c" "$work/here/a=b c.c"
cp "$copy/examples/hello.c" "$work/here/-x.c"
printf 'int main(void){\n' >"$work/here/other.c"
head -c 1048577 /dev/zero >"$work/here/long.c"
printf '20 write 0x16ffffff8 0000000000000000\n' >"$work/here/x.script"
head -n 4 "$copy/examples/hello.report" >"$work/short"
printf 'output 2\nHi\nend trap auth_fail\nsigns 4 takes 4 lands 4 unsigned 0\n' >"$work/stopped"

# A command rt that counts its calls of `try`, and fails once the file `fails` is there.
cat >"$work/bin/rt" <<RT
#!/bin/sh
if [ "\$1" = try ]; then
    echo call >>"$work/calls"
    if [ -e "$work/fails" ]; then echo "no such kit" >&2; exit 2; fi
fi
exec "$(command -v rt)" "\$@"
RT
chmod +x "$work/bin/rt"
for tool in bash env readlink dirname find sort xargs sha256sum cut mktemp cat; do ln -s "$(command -v $tool)" "$work/no kit/$tool"; done
export XDG_CACHE_HOME=$work/cache
path=$work/bin:$PATH
: >"$work/calls"

# try NAME FOLDER STATUS OUTPUT ERRORS CALLS WORD..: runs the words in the folder. OUTPUT is a file, or the text. ERRORS is a
# pattern of a line on standard error, or empty where nothing is to stand there. CALLS counts all compilations so far.
try() {
    local name=$1 folder=$2 status=$3 output=$4 errors=$5 calls=$6 got why=
    shift 6
    (cd "$folder" && PATH=$path "$@") >"$work/out" 2>"$work/err"
    got=$?
    [ $got = "$status" ] || why="status $got"
    if [ -f "$output" ]; then cmp -s "$work/out" "$output" || why="$why output"; elif [ "$(cat "$work/out")" != "$output" ]; then why="$why output"; fi
    if [ -n "$errors" ]; then grep -q -- "$errors" "$work/err" || why="$why errors"; fi
    [ "$(wc -l <"$work/calls")" = "$calls" ] || why="$why calls"
    if [ -z "$why" ]; then echo "passed: $name"; else echo "FAILED: $name:$why"; failed=1; sed 's/^/    /' "$work/err"; fi
}

here=$work/here
script=$copy/paclab
report=$copy/examples/hello.report
try 'no words'                   "$here" 2 'usage U1' 'type: paclab run FILE' 0 "$script"
try '--help'                     "$here" 2 'usage U1' 'putchar(72);' 0 "$script" --help
try 'a bare word'                "$here" 2 'usage U1' 'type: paclab run FILE' 0 "$script" x.c
try 'run alone'                  "$here" 2 'usage U6' 'type: paclab run FILE' 0 "$script" run
try 'a missing file'             "$here" 4 'read fault 1' '' 0 "$script" run absent.c
try 'a folder'                   "$here" 4 'read fault 1' '' 0 "$script" run below
touch "$work/fails"
try 'a kit that fails'           "$here" 125 '' 'no such kit' 1 "$script" run x.c
rm "$work/fails"
path="$work/no kit"
try 'no kit'                     "$here" 125 '' 'no command rt' 1 "$script" run x.c
path=$work/bin:$PATH
try 'the first run'              "$here" 0 "$report" 'about a minute' 2 "$script" run x.c
try 'the second run'             "$here" 0 "$report" 'without a proof' 2 "$script" run x.c
try 'through a link'             "$here" 0 "$report" 'without a proof' 2 "$work/links/paclab" run x.c
try 'from the folder above'      "$here/below" 0 "$report" 'without a proof' 2 "$script" run ../x.c
try 'a name with = and a blank'  "$here" 0 "$report" 'without a proof' 2 "$script" run 'a=b c.c'
try 'a name with a minus'        "$here" 0 "$report" 'without a proof' 2 "$script" run -x.c
try 'an absolute name'           / 0 "$report" 'without a proof' 2 "$script" run "$here/x.c"
try 'a pipe'                     "$here" 0 "$report" 'without a proof' 2 bash -c "\"$script\" run <(cat x.c)"
try 'another form'               "$here" 3 'refused N1 0 0' 'putchar(72);' 2 "$script" run other.c
try 'too long'                   "$here" 3 'refused M6 1 1048576' '1048576 bytes' 2 "$script" run long.c
try 'words, once it is compiled' "$here" 2 'usage U1' 'type: paclab run FILE' 2 "$script" walk
try 'an option without a value'  "$here" 2 'usage U3' 'options of run: --input' 2 "$script" run --log
try 'a discriminator'            "$here" 0 'disc 59283' '' 2 "$script" disc ''
try 'standard input'             "$here" 0 "$work/short" '' 2 bash -c "printf ns | \"$script\" run x.c --input - --log short"
try 'a long standard input'      "$here" 3 'refused M6 65 1048576' 'has the rules' 2 bash -c "\"$script\" run x.c --input - <long.c"
try 'a closed standard input'    "$here" 5 'input fault' '' 2 bash -c "\"$script\" run x.c --input - <&-"
try 'a script'                   "$here" 0 "$work/stopped" '' 2 "$script" run x.c --script x.script --log short
try 'a script of another form'   "$here" 3 'refused P1 66 1' 'has the rules' 2 "$script" run x.c --script x.c
try 'a missing script'           "$here" 4 'read fault 66' '' 2 "$script" run x.c --script absent
try 'a command to come'          "$here" 3 'refused N1 0 0' 'not built yet' 2 "$script" build x.c
try 'a full disk'                "$here" 6 '' 'without a proof' 2 bash -c "\"$script\" run x.c >/dev/full"
echo '// another comment' >>"$copy/crates/paclab/src/main.rt"
try 'changed sources'            "$here" 0 "$report" 'about a minute' 3 "$script" run x.c
exit $failed
