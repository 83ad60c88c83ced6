#!/usr/bin/env bash
# Tests the script ./qsc, on small repositories of its own and with a stand-in for rt, so that nothing is proved:
# bench/script.sh [CASE ..]. Prints a line for each case and at the end `N passed, M failed`; ends with 1 where one failed.
set -u
script=$(readlink -f "$(dirname "${BASH_SOURCE[0]}")/../qsc")
room=$(mktemp -d)
trap 'chmod -R u+w "$room" && rm -rf "$room"' EXIT
chmod 755 "$room"
mkdir "$room/kit" && PATH=$room/kit:$PATH

# ---- the stand-in

# It notes its calls, and what it is to do stands in the variable `how`. The program that it makes tells which source it was
# made from, its folder, its words and its input, and ends with the status that its first word names.
cat >"$room/kit/rt" <<'END'
#!/usr/bin/env bash
echo "$*" >>calls
[ "$1 ${how-}" != 'all stopped' ] || { echo $$ >begun && exec sleep 600; }
case $1 in
  version) echo rattle-kit-0 logic 0 ;;
  all) echo only=0 && printf '== %s\nfn qs::error::kind: proved\n' base low && case ${how-} in
    held) echo $$ >begun && until [ -e go ]; do sleep 0.1; done ;;
    refused) printf '%s\n' 'src/a.rt:1:2: error[mismatched-types]: one' two '' three && exit 1 ;;
    long) printf 'error: %s\n' 1 && printf 'more %s\n' {2..20} && exit 1 ;;
    unproved) printf '%s\n' 'fn qs::f: no proof: expected answers' goal && exit 1 ;;
    silent) printf 'rt: %s\n' {1..9} && exit 2 ;;
    short) echo 'low: failed (-9)' && exit 1 ;;
    changed) echo late >>../low/src/lib.rt ;;
  esac && printf '== %s\n' qsc summary ;;
  run) case ${how-} in
    refused) exit 1 ;;
    cut) exit 0 ;;
    outcome) status=3 ;;
  esac
    cat >out/qsc <<PROGRAM
#!/usr/bin/env bash
echo "$(cat ../low/src/lib.rt), \$PWD"
printf '<%s>' "\$@"
[ "\${1-}" = input ] && cat
[[ "\${1-}" =~ ^[0-9]+\$ ]] && exit "\$1"
exit 0
PROGRAM
    chmod 755 out/qsc
    echo 'usage: qsc COMMAND FILE OPTIONS'
    exit "${status-0}" ;;
esac
END
chmod 755 "$room/kit/rt"

# ---- what the cases are made of

# A repository of its own for a case, in a folder whose name has a blank, with its script and, of the program, nothing.
repository() {
  local name
  top="$room/$1/a repository" folder="$top/crates/qsc"
  mkdir -p "$top"/crates/{base,low,qsc,tests}/src "$top/crates/low/proofs" && cp "$script" "$top/qsc" && cd "$room/$1" || exit
  for name in base low qsc tests; do echo first >"$top/crates/$name/src/lib.rt"; done
  printf '%s\n' '# crates' 'tests: low' 'qsc: low' 'low: base clap # of the kit' 'base:' >"$top/crates.txt"
}
call() {
  status=0
  "$top/qsc" "$@" >out 2>err || status=$?
}
ended() { [ "$status" = "$1" ] || { echo "status $status, not $1" && false; }; }
puts() { [ "$(cat out)" = "$1" ] || { echo "another output than $1" && false; }; }
says() { grep -qF -- "$1" err || { echo "nothing says: $1" && false; }; }
builds() { [ "$(grep -c ^run "$folder/calls")" = "$1" ] || { echo "not built $1 times" && false; }; }
no_program() { ended 125 && puts '' && [ ! -e "$folder/out/built" ]; }
is_quiet() { [ ! -s err ] || { echo 'not quiet' && false; }; }
refuses() { how=$1 call a && no_program && says 'was not built with rattle-kit-0 logic 0; the log is ' && says "$folder/out/build.log"; }
until_true() { for _ in {1..900}; do if "$@"; then return; else sleep 0.1; fi; done; }

# ---- the cases, each in a shell and a folder of its own

it_builds_once() {
  call a && ended 0 && puts "first, $PWD"$'\n<a>' && says 'proving and building' || return
  call b && ended 0 && puts "first, $PWD"$'\n<b>' && builds 1 && is_quiet
}
it_proves_side_by_side() { call a && grep -Eqx 'all check --jobs [1-9][0-9]*' "$folder/calls" && grep -qx 'run -- sample 1' "$folder/calls"; }
it_tells_how_far_it_is() { call a && says 'of 3 crates, 0 min' && says '3 of 3 crates, 0 min'; }
it_builds_after_a_change() { call a && echo second >"$top/crates/low/src/lib.rt" && call a && puts "second, $PWD"$'\n<a>' && builds 2; }
it_builds_after_an_older_source() {
  call a && echo older >"$top/crates/low/src/lib.rt" && touch -d 2000-01-01 "$top/crates/low/src/lib.rt" && call a && builds 2
}
it_builds_after_a_new_source() { call a && touch -d 2000-01-01 "$top/crates/low/proofs/a.antt" && call a && builds 2; }
it_builds_after_a_source_went() { call a && rm "$top/crates/base/src/lib.rt" && call a && builds 2; }
it_builds_after_a_change_of_the_list() { call a && echo '# more' >>"$top/crates.txt" && call a && builds 2; }
it_builds_where_the_program_was_changed() { call a && touch -d 2000-01-01 "$folder/out/qsc" && call a && builds 2; }
it_passes_over_other_crates() { call a && echo second >"$top/crates/tests/src/lib.rt" && call a && builds 1; }
it_takes_a_copy_with_its_times() { call a && cp -a "$top" copy && top=$PWD/copy && call a && ended 0 && is_quiet; }

stale() { call a && echo second >"$top/crates/low/src/lib.rt" && refuses "$1"; }
it_runs_no_stale_program_after_a_refusal() { stale refused && [ ! -e "$folder/out/qsc" ] && refuses refused; }
it_runs_no_stale_program_after_a_run_that_built_none() { stale cut; }
it_runs_no_stale_program_after_a_run_that_failed() { stale outcome && call a && ended 0 && puts "second, $PWD"$'\n<a>'; }
it_runs_no_stale_program_that_stays() {
  call a && rm "$folder/out/qsc" && mkdir -p "$folder/out/qsc/in" && call a && ended 125 && puts '' && says "can't be removed" && builds 1
}
it_runs_no_stale_program_whose_stamp_stays() {
  call a && rm "$folder/out/built" && mkdir -p "$folder/out/built/in" && call a && ended 125 && puts '' && says "can't be removed" && builds 1
}
it_runs_no_program_of_sources_that_changed_meanwhile() {
  how=changed call a && ended 125 && puts '' && says 'a source was changed' && call a && ended 0 && builds 2
}
it_goes_on_where_memory_was_short() { how=short call a && ended 0 && puts "first, $PWD"$'\n<a>' && says 'memory was short'; }

# a folder with all commands that the script and the stand-in take, but rt
without_rt() {
  mkdir tools && for name in "$@"; do ln -s "$(type -P "$name")" tools/; done
  # shellcheck disable=SC2123 # that is what it is for
  PATH=$PWD/tools
}
it_says_that_rt_is_missing() {
  call a && echo second >"$top/crates/low/src/lib.rt"
  (without_rt env bash readlink dirname awk sed find sort cmp cat grep && call a && ended 125 && puts '' && says 'not on PATH' && says /opt/rattle/bin/rt)
}
it_needs_no_rt_once_built() { call a && (without_rt env bash readlink dirname awk sed find sort cmp cat && call a && ended 0 && is_quiet); }
it_says_that_rt_is_another() {
  mkdir other && printf '#!/bin/sh\necho "no such command" && exit 1\n' >other/rt && chmod 755 other/rt
  PATH=$PWD/other:$PATH call a && ended 125 && puts '' && says "$PWD/other/rt is not the command" && says 'no such command'
}

it_shows_an_error_up_to_an_empty_line() { refuses refused && says 'error[mismatched-types]: one' && says two && ! says three; }
it_shows_ten_lines_of_an_error() { refuses long && says 'more 10' && ! says 'more 11'; }
it_shows_what_is_not_proved() { refuses unproved && says 'fn qs::f: no proof' && says goal && ! says 'kind: proved'; }
it_shows_the_last_lines_without_an_error() { refuses silent && says 'rt: 9' && says 'rt: 5' && ! says 'rt: 4'; }

# a call while rt works for an earlier one, which goes on once this one waits
call_beside() {
  "$top/qsc" "$@" >out 2>err &
  until_true grep -q 'another call builds' err
  touch "$folder/go"
  wait $!
  status=$?
}
it_builds_once_where_two_call() {
  how=held "$top/qsc" a >first.out 2>first.err &
  local first=$!
  until_true [ -e "$folder/begun" ] && call_beside b && ended 0 && puts "first, $PWD"$'\n<b>' && says 'another call builds' && builds 1 &&
    wait $first && grep -q '<a>' first.out && ! grep -q 'another call' first.err && ! says 'proving and building'
}
it_runs_while_another_call_runs() {
  mkfifo pipe && { "$top/qsc" input <pipe >first.out 2>/dev/null & } && exec 7>pipe && until_true grep -q input first.out &&
    echo >>"$top/crates.txt" && call b && ended 0 && builds 2 && ! says 'another call'
}
it_waits_for_an_rt_that_outlives_its_script() {
  how=held "$top/qsc" a >/dev/null 2>&1 &
  until_true [ -e "$folder/begun" ] && kill -s KILL $! && call_beside b && ended 0 && says 'another call builds' && builds 1
}

# A signal to the script alone, or to its group as a terminal sends it, which `set -m` makes.
interrupted_by() {
  set -m
  how=stopped env --default-signal "$top/qsc" a >out 2>err &
  until_true [ -e "$folder/begun" ] && kill -s "$1" -- "${3-}$!"
  wait $!
  status=$?
  set +m
  ended "$2" && puts '' && [ ! -e "$folder/out/built" ] && ! kill -0 "$(cat "$folder/begun")" &&
    call a && ended 0 && puts "first, $PWD"$'\n<a>' && [ "$(grep -c ^all "$folder/calls")" = 2 ]
}
it_ends_rt_at_sigint() { interrupted_by INT 130; }
it_ends_rt_at_sigterm() { interrupted_by TERM 143; }
it_ends_rt_at_sighup() { interrupted_by HUP 129; }
it_ends_rt_at_an_interrupt_from_a_terminal() { interrupted_by INT 130 -; }

it_wants_bash() {
  local shell=(dash)
  type -P dash >/dev/null || shell=(busybox sh)
  type -P "${shell[0]}" >/dev/null || { echo '        not tried: neither dash nor busybox is there' >&3 && return; }
  status=0
  "${shell[@]}" "$top/qsc" a >out 2>err || status=$?
  ended 125 && puts '' && says 'wants bash' && [ "$(wc -l <err)" = 1 ]
}
it_works_where_bash_is_posix() { POSIXLY_CORRECT=1 call a && ended 0 && puts "first, $PWD"$'\n<a>'; }

# a call by someone who can't write there
call_without_rights() {
  status=0
  chmod -R go-w,a+rX "$top" && chmod a+rwx . && rm -f out err
  if [ "$(id -u)" = 0 ]; then
    setpriv --reuid=65534 --regid=65534 --clear-groups "$top/qsc" "$@" >out 2>err || status=$?
  else
    chmod -R u-w "$top"
    "$top/qsc" "$@" >out 2>err || status=$?
    chmod -R u+w "$top"
  fi
}
it_runs_where_nothing_can_be_written() { call a && call_without_rights b && ended 0 && puts "first, $PWD"$'\n<b>' && is_quiet; }
it_says_that_nothing_can_be_written() {
  call a && echo second >"$top/crates/low/src/lib.rt" && call_without_rights b && ended 125 && puts '' && says "$folder/out can't be written"
}
it_says_so_where_nothing_was_built() { call_without_rights b && ended 125 && puts '' && says "$folder/out can't be written"; }

it_passes_words_on() { call '' 'a b' '*' $'c\nd' -- --opt= && puts "first, $PWD"$'\n<><a b><*><c\nd><--><--opt=>'; }
it_passes_no_words_on() { call && puts "first, $PWD"$'\n<>'; }
it_passes_input_on() { echo text | call input && puts "first, $PWD"$'\n<input>text'; }
it_passes_the_status_on() { call 0 && ended 0 && call 7 && ended 7 && call 124 && ended 124; }
it_runs_by_a_link() { ln -s "$top/qsc" 'a link' && ln -s 'a link' link && top=$PWD && mv link qsc && call a && ended 0 && puts "first, $PWD"$'\n<a>'; }
it_runs_from_another_folder() { mkdir in && cd in && top="../a repository" && CDPATH=.. call a && ended 0 && puts "first, $PWD"$'\n<a>'; }
it_runs_with_closed_streams() { "$top/qsc" 5 <&- >&- 2>&- || status=$? && ended 5 && "$top/qsc" 5 <&- >&- 2>&- || status=$? && ended 5 && builds 1; }

# ---- the run

mapfile -t cases < <(compgen -A function it_)
[ $# = 0 ] || cases=("$@")
passed=0 failed=0
for case in "${cases[@]}"; do
  mkdir "$room/$case"
  if (repository "$case" && "$case") 3>&1 >"$room/$case/report" 2>&1; then
    passed=$((passed + 1)) && printf 'ok      %s\n' "${case//_/ }"
  else
    failed=$((failed + 1)) && printf 'FAILED  %s\n' "${case//_/ }" && head -n 20 "$room/$case"/{report,out,err} 2>/dev/null
  fi
done
echo "$passed passed, $failed failed"
[ "$failed" = 0 ]
