#!/bin/sh
# Compares what `mcslab` says of itself: each example of --help is done in a fresh folder; each
# command and option of --help stands in the manual page and in the completions for each shell; each
# form of an entry in `forms plan` is read, and what it lacks is told with that form. Run it after
# rt ci, which leaves the program, or with another program: sh tests/help.sh PROGRAM
set -eu
cd "$(dirname "$0")/.."
program=${1:-$PWD/crates/mcslab/out/mcslab}
case $program in /*) ;; *) program=$PWD/$program ;; esac
[ -x "$program" ] || { echo "help.sh: run rt ci first, which leaves $program"; exit 1; }
work=$(mktemp -d)
trap 'rm -rf "$work"' EXIT
cd "$work"

# Fails with what was wanted.
fails() {
    echo "help.sh: $1"
    exit 1
}

"$program" --help >help
commands=$(sed -n '/^Commands:/,/^$/s/^  \([a-z][a-z]*\) .*/\1/p' help | grep -v '^help$')
"$program" manual >mcslab.1
for shell in bash zsh fish; do
    "$program" completions $shell >$shell
done

# The examples, each in its turn.
examples=0
mkdir examples bin
ln -s "$program" bin/mcslab
: >examples/trace
sed -n '/^Examples:/,/^$/s/^  \(mcslab .*\)/\1/p' help | sed 's/   .*//' >lines
while IFS= read -r line; do
    (cd examples && PATH=$work/bin:$PATH sh -c "$line" >/dev/null 2>&1 </dev/null) || fails "an example ends with a status: $line"
    examples=$((examples + 1))
done <lines
for command in $commands; do
    grep -q "^mcslab $command" lines || fails "no example of $command"
done

# Each command, and each of its options.
options=0
for command in $commands; do
    grep -q "^\.SS $command\$" mcslab.1 || fails "no $command in the manual page"
    for shell in bash zsh fish; do
        grep -q "\b$command\b" $shell || fails "no $command in the completions for $shell"
    done
    for option in $("$program" "$command" --help | sed -n 's/^ *\(-h, \)\{0,1\}--\([a-z-]*\).*/\2/p' | grep -v '^help$'); do
        escaped=$(echo "--$option" | sed 's/-/\\-/g')
        sed -n "/^\.SS $command\$/,/^\.SS/p" mcslab.1 | grep -q -F -e "$escaped" || fails "no --$option of $command in the manual page"
        grep "^ *$command) words=" bash | grep -q -e "--$option\b" || fails "no --$option of $command for bash"
        grep "^ *$command) _arguments" zsh | grep -q -e "--$option\[" || fails "no --$option of $command for zsh"
        grep "seen_subcommand_from $command'" fish | grep -q -e "-l $option\b" || fails "no --$option of $command for fish"
        options=$((options + 1))
    done
done

# The shells read them, as far as they are here, and bash completes by them.
if command -v bash >/dev/null; then
    cat >complete.bash <<'END'
. ./bash
COMP_WORDS=(mcslab "$@")
COMP_CWORD=$#
_mcslab
printf '%s\n' "${COMPREPLY[@]}"
END
    [ "$(bash complete.bash ex)" = explore ] || fails "bash: mcslab ex"
    [ "$(bash complete.bash draw --fr)" = --from ] || fails "bash: mcslab draw --fr"
    [ "$(bash complete.bash completions z | sort -u)" = zsh ] || fails "bash: mcslab completions z"
    [ "$(bash complete.bash check lin)" = lines ] || fails "bash: mcslab check lin"
fi
for shell in zsh fish; do
    ! command -v $shell >/dev/null || $shell -n $shell || fails "$shell does not read its completions"
done
if command -v groff >/dev/null; then
    groff -man -Tascii -ww -z mcslab.1 2>warned
    [ ! -s warned ] || { cat warned; fails "the manual page"; }
fi

# Each form of an entry.
forms=0
cat >head.plan <<'END'
endpoint ep
reply r
notification n
context c
thread b prio 1
thread a prio 1
a has ep r n c b - as s

END
"$program" forms plan | sed -n '/^Entries/,$s/^  //p' >entries
while IFS= read -r form; do
    line=$(echo "$form" | sed 's/ENDPOINT/ep/; s/REPLY/r/; s/LABEL/1/; s/WORD\.\./2 0x3/; s/TARGET/ep/; s/SOURCE/ep/; s/NOTIFICATION/n/
        s/AUTHORITY/b/; s/THREAD/b/; s/PRIORITY/1/; s/CONTEXT/c/; s/SLOT/s/g; s/RIGHTS/r/; s/BADGE/5/; s/KIND/endpoint/')
    { cat head.plan; echo "a: $line"; } >form.plan
    "$program" compile form.plan >/dev/null 2>told || { cat told; fails "not read: $line"; }
    while [ "$line" != "${line% *}" ]; do
        line=${line% *}
        { cat head.plan; echo "a: $line"; } >form.plan
        if "$program" compile form.plan >/dev/null 2>told; then
            continue
        fi
        grep -q "^form.plan:9: $form: the .* is missing\$" told || { cat told; fails "what is missing: $line"; }
    done
    forms=$((forms + 1))
done <entries
[ $forms -ge 24 ] || fails "only $forms entries in forms plan"
"$program" forms script | grep -q '^  nbsendrecv ' || fails "no forms of a script"
for word in 't1 waits e1.send' '#! never' '#! again'; do
    "$program" forms questions | grep -q -F -e "$word" || fails "no $word in forms questions"
done
for wrong in 'forms' 'forms plans' 'completions' 'completions tcsh' 'manual x'; do
    status=0
    # shellcheck disable=SC2086
    "$program" $wrong >/dev/null 2>&1 || status=$?
    [ $status -eq 64 ] || fails "$wrong: status $status"
done
echo "help: $examples examples, $options options and $forms forms of entries, as the program says"
