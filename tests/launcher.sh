#!/usr/bin/env bash
# In a fresh clone, where nothing is built, ./xsubpp runs the sources without proof and says so in one line. What the program writes
# and its status come through, for files in any folder; and each status that a program can end with does.
set -u
top=$(cd "$(dirname "${BASH_SOURCE[0]}")/.." && pwd -P)
room=$(mktemp -d) || exit 1
trap 'rm -rf "$room"' EXIT
git clone -q "$top" "$room/clone" || exit 1
xsubpp=$room/clone/xsubpp
failed=0

# Compares what run NAME has written, and its status, with what is wanted: NAME STATUS OUT ERR.
expect() {
    printf '%s' "$3" >"$room/$1.out.wanted"
    printf '%s' "$4" >"$room/$1.err.wanted"
    if [ "$(cat "$room/$1.status")" = "$2" ] && cmp "$room/$1.out" "$room/$1.out.wanted" && cmp "$room/$1.err" "$room/$1.err.wanted"; then
        echo "launcher: $1: ok"
    else
        echo "launcher: $1: FAILED: status $(cat "$room/$1.status"), where $2 is wanted, and on the error stream:"
        cat "$room/$1.err"
        failed=1
    fi
}

# Runs a command, and keeps what it writes and its status as run NAME.
record() {
    local name=$1
    shift
    "$@" >"$room/$name.out" 2>"$room/$name.err"
    echo $? >"$room/$name.status"
}

unproved='xsubpp: not built yet: the sources run without proof, in about a minute; ./build proves and links the program
'
mkdir "$room/below"
printf 'MODULE = M\n\nvoid\n' >"$room/void.xs"
SECONDS=0
(cd "$room/clone" && record transcript ./xsubpp call examples/add.xs examples/add.txt) &
(cd "$room/below" && record refused "$xsubpp" check ../void.xs) &
wait
expect transcript 0 'boot returned
  live 0 marks 0 scopes 0
call 1 M::add returned 1
  item 0 = 5
  arg 0 = 2
  arg 1 = 3
  live 0 marks 0 scopes 0
' "$unproved"
expect refused 1 '' "$unproved../void.xs:3: 999 form not built yet
"
echo "launcher: two runs at once without proof took $SECONDS seconds"

# In the place of rt: ends as rt does where the program ends with status $STATUS, and writes the words that it was given.
mkdir "$room/bin"
cat >"$room/bin/rt" <<'END'
#!/usr/bin/env bash
[ "$*" = "try --seconds 600 --" ] || [ "$*" = "try --seconds 600 -- check -a /b" ] || exit 2
echo "out $STATUS"
echo "err $STATUS" >&2
[ "$STATUS" = none ] && exit 6
printf 'checked: ended status=%d\nrun=ended status=%d runners=1 proved=no\n' "$STATUS" "$STATUS" >&2
exit "$STATUS"
END
chmod +x "$room/bin/rt"
for status in 0 1 2 3 4 5 6; do
    record "status_$status" env "PATH=$room/bin:$PATH" "STATUS=$status" "$xsubpp" check -a /b
    expect "status_$status" "$status" "out $status
" "${unproved}err $status
"
done
record no_words env "PATH=$room/bin:$PATH" STATUS=2 "$xsubpp"
expect no_words 2 'out 2
' "${unproved}err 2
"
record no_answer env "PATH=$room/bin:$PATH" STATUS=none "$xsubpp"
expect no_answer 125 '' "${unproved}err none
xsubpp: the run without proof gave no answer; ./build proves and links the program
"

# Once it is built the program itself runs, until a source is newer.
mkdir -p "$room/clone/crates/xsubpp/out"
printf '#!/bin/sh\necho "$@"\nexit 3\n' >"$room/clone/crates/xsubpp/out/xsubpp"
chmod +x "$room/clone/crates/xsubpp/out/xsubpp"
record built "$xsubpp" call a b
expect built 3 'call a b
' ''
touch -d '1 minute' "$room/clone/crates/xs_base/src/lib.rt"
record newer env "PATH=$room/bin:$PATH" STATUS=0 "$xsubpp"
expect newer 0 'out 0
' "${unproved/not built yet/a source is newer than the built program}err 0
"
exit "$failed"
